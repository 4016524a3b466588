/* Memory for the library that is refused at the calls that a test names; and a count of the calls. It needs no header, so that the
 * toolchain's own compiler makes it where there is no other. */
typedef __SIZE_TYPE__ length;

void *__real_malloc(length size);
void *__real_realloc(void *at, length size);

static unsigned long asked, first_refused, last_refused;

/* Refuses the calls from the first to the last of these numbers, counted from 1 from now on. */
void refuse_calls(unsigned long first, unsigned long last)
{
    asked = 0;
    first_refused = first;
    last_refused = last;
}

/* Tells how many calls there were since. */
unsigned long calls_asked(void)
{
    return asked;
}

static int is_refused(void)
{
    asked++;
    return first_refused <= asked && asked <= last_refused;
}

void *__wrap_malloc(length size)
{
    return is_refused() ? 0 : __real_malloc(size);
}

void *__wrap_realloc(void *at, length size)
{
    return is_refused() ? 0 : __real_realloc(at, size);
}
