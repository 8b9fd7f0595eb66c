/* The timers of paddlemauve_m328p.h as the keys of a script's configuration, for a comparison with the presets. */
#include <stdio.h>

#include "paddlemauve_m328p.h"

static void unit(const char *key, bool present, const char *format, unsigned value) {
    printf(" %s=", key);
    if (present) printf(format, value);
    else printf("-");
}

int main(void) {
    for (int i = 0; i < 3; i++) {
        const struct pm_config *c = &pm_m328p[i].config;
        printf("id=%d wide=%d layout=%s tccra=%X tccrb=%X foc=%X foca=%X focb=%X tcnt=%X", c->id, c->wide, c->layout ? "single" : "split", c->tccra,
               c->tccrb, c->foc, c->a.force, c->b.force, c->tcnt);
        unit("ocra", c->a.present, "%X", c->a.address);
        unit("ocrb", c->b.present, "%X", c->b.address);
        unit("icr", c->icr.present, "%X", c->icr.address);
        printf(" tov=%X ocfa=%X ocfb=%X icf=%X", c->tov, c->a.flag, c->b.flag, c->icr.flag);
        unit("pina", c->a.wire.present, "%u", c->a.wire.pin);
        unit("pinb", c->b.wire.present, "%u", c->b.wire.pin);
        unit("c", c->c.present, "%X", c->c.address);
        unit("icp", c->icr.wire.present, "%u", c->icr.wire.pin);
        unit("t", c->t.present, "%u", c->t.pin);
        printf(" clock=%s group=%d prr=%X sleeprun=%X\n", c->clocks ? "t2" : "sync", c->group, c->prr, c->sleeprun);
    }
    return 0;
}
