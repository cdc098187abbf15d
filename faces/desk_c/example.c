/* A caller of the library: the rules of a smoke alarm, and a script of four lines. */
#include "szp.h"
#include <stdio.h>
#include <stdlib.h>
#include <string.h>

static const char RULES[] =
    "declare Smoke @role( event ) room : String end\n"
    "declare Sprinkler @role( event ) room : String end\n"
    "rule \"no water\" when\n"
    "  $s : Smoke( $r : room )\n"
    "  not( Sprinkler( room == $r, this after[0s,10s] $s ) )\n"
    "then end\n";

static const char SCRIPT[] =
    "{\"do\":\"insert\",\"type\":\"Smoke\",\"fields\":{\"room\":\"hall\"}}\n"
    "{\"do\":\"fire\"}\n";

static const char LATER[] =
    "{\"do\":\"at\",\"ms\":10001}\n"
    "{\"do\":\"fire\"}\n";

static uint32_t open_desk(szp *desk, const uint8_t *image, size_t len)
{
    return szp_open(desk, (const uint8_t *)RULES, strlen(RULES), image, len, 100000, SZP_TEXT);
}

static uint32_t feed(szp *desk, const char *lines) { return szp_feed(desk, (const uint8_t *)lines, strlen(lines)); }

/* Prints what a handle has put out. */
static void print_output(szp *desk)
{
    uint8_t bytes[64];
    size_t len;
    while (szp_output(desk, bytes, sizeof bytes, &len) == SZP_GOES && len)
        fwrite(bytes, 1, len, stdout);
}

/* Another handle goes on from the image of this one. */
static uint32_t go_on(szp *desk, szp *next)
{
    size_t size, len;
    uint32_t status = szp_save(desk, &size);
    uint8_t *image = status == SZP_GOES ? malloc(size) : NULL;
    if (!image)
        return status == SZP_GOES ? SZP_NO_MEMORY : status;
    szp_image(desk, image, size, &len);
    status = open_desk(next, image, len);
    free(image);
    return status;
}

int main(void)
{
    szp desk = SZP_INIT, next = SZP_INIT;
    uint32_t status = open_desk(&desk, SZP_NOTHING, 0);
    if (status == SZP_GOES)
        status = feed(&desk, SCRIPT);
    print_output(&desk);
    if (status == SZP_GOES)
        status = go_on(&desk, &next);
    if (status == SZP_GOES)
        status = feed(&next, LATER);
    print_output(&next);
    szp_close(&desk);
    if (status == SZP_GOES)
        status = szp_close(&next);
    printf("status %u\n", status);
    return (int)status;
}
