/* A caller of the library: the rules of a smoke alarm, and a script of four lines.
 *
 *     cc -o example example.c libsozhipen.a && ./example
 */
#include "szp.h"
#include <stdio.h>
#include <string.h>

static const char RULES[] =
    "declare Smoke @role( event ) room : String end\n"
    "declare Sprinkler @role( event ) room : String end\n"
    "rule \"no water\" when\n"
    "  $s : Smoke( $r : room )\n"
    "  not( Sprinkler( room == $r, this after[0s,10s] $s ) )\n"
    "then end\n";

static const char SCRIPT[] =
    "{\"do\":\"insert\",\"type\":\"Smoke\",\"fields\":{\"room\":\"hall\"}}\n"
    "{\"do\":\"fire\"}\n";

static const char LATER[] =
    "{\"do\":\"at\",\"ms\":10001}\n"
    "{\"do\":\"fire\"}\n";

/* Prints what a handle has put out. */
static void print_output(szp *desk)
{
    const void *bytes;
    size_t len;
    szp_output(desk, &bytes, &len);
    fwrite(bytes, 1, len, stdout);
}

int main(void)
{
    szp desk = SZP_INIT, next = SZP_INIT;
    szp_options options = {.form = SZP_TEXT};
    int status = szp_open(&desk, RULES, strlen(RULES), &options);
    if (status == SZP_GOES)
        status = szp_feed(&desk, SCRIPT, strlen(SCRIPT));
    print_output(&desk);
    if (status == SZP_GOES) { /* another handle goes on from the image of this one */
        status = szp_save(&desk, &options.image, &options.image_len);
        if (status == SZP_GOES)
            status = szp_open(&next, RULES, strlen(RULES), &options);
        if (status == SZP_GOES)
            status = szp_feed(&next, LATER, strlen(LATER));
        print_output(&next);
        if (status == SZP_GOES)
            status = szp_end(&next);
    }
    printf("status %d\n", status);
    szp_close(&next);
    szp_close(&desk);
    return status;
}
