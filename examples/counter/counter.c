struct counter {
    unsigned value;
    unsigned limit;
};

/* Counts one more, below the limit; whether it did. */
int count(struct counter *c)
{
    if (c->value >= c->limit)
        return 0;
    c->value = c->value + 1;
    return 1;
}
