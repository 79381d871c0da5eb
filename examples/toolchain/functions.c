unsigned scale = 3;
const unsigned table[4] = {1, 2, 4, 8};

unsigned add(unsigned a, unsigned b) { return a + b; }

unsigned difference(unsigned a, unsigned b) { return a - b; }

unsigned scaled(unsigned a) { return a * scale; }

unsigned power(unsigned i) { return table[i & 3]; }
