// plain_twin.h's guest write and read and its end signal behind calls, as the library's are.
#include "plain_entries.h"
#include "plain_twin.h"

void plain_platform_reset(struct plain *p)
{
    if (initial[0] == 0)
        fill_tables();
    platform_reset((struct state *)p);
}

void plain_end_signal(struct plain *p)
{
    end_signal((struct state *)p);
}

int plain_write(struct plain *p, unsigned offset, unsigned lanes, uint32_t value)
{
    return guest_write((struct state *)p, offset, lanes, value);
}

int plain_read(const struct plain *p, unsigned offset, unsigned lanes, uint32_t *value)
{
    return guest_read((const struct state *)p, offset, lanes, value);
}
