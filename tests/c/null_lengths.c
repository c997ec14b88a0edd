/* RAM or an image that is null and has a length: vmig_make, vmig_arrive and vmig_give_back refuse it by its name, in the order of all refusals, and
 * nothing is taken. Pages that are null and have a count, or whose bitmap has none: vmig_give_back, vmig_mark and vmig_push refuse these. The calls
 * of the library by the same names are there too, by their addresses. */
#include "driver.h"

enum { PAGES = 2, RAM = PAGES * 4096 };

static const vmig_shape DISKS[] = {{.kind = VMIG_BLOCK, .sectors = 2}, {.kind = VMIG_CONSOLE}, {.kind = VMIG_BLOCK, .sectors = 1}};
static uint8_t room[RAM], sectors[3 * 512];

/* What is null. */
enum { NOTHING, IS_RAM, IS_FIRST, IS_LAST = 4, CASES = 8 };

static vmig_status wanted(int null)
{
    return null & IS_RAM ? VMIG_BAD_RAM : null ? VMIG_BAD_IMAGES : VMIG_OK;
}

static vmig_ram ram_of(int null)
{
    return (vmig_ram){null & IS_RAM ? NULL : room, sizeof room};
}

static void images_of(int null, vmig_image images[2])
{
    images[0] = (vmig_image){null & IS_FIRST ? NULL : sectors, 2};
    images[1] = (vmig_image){null & IS_LAST ? NULL : sectors + 1024, 1};
}

/* Neither RAM nor an image was taken. */
static void is_as_it_was(const char *what, int null, const vmig_ram *ram, const vmig_image *images)
{
    vmig_image were[2];

    images_of(null, were);
    expect(what, ram->at == ram_of(null).at && ram->len == sizeof room, 1);
    expect(what, (uint64_t)memcmp(images, were, sizeof were), 0);
}

/* ---- made ------------------------------------------------------------------------------------------------------------------------ */

static vmig_setup setup_of(int null, vmig_image images[2])
{
    vmig_setup setup = VMIG_SETUP;

    images_of(null, images);
    setup.ram = ram_of(null), setup.shapes = DISKS, setup.count = 3, setup.images = images, setup.count_images = 2;
    return setup;
}

static void makes(const char *what, int null, vmig_setup *setup, vmig_status status)
{
    vmig_machine m = VMIG_NONE;

    expect(what, vmig_make(setup, &m), status);
    if (status == VMIG_OK) expect("taken", setup->ram.len + setup->images[0].sectors + setup->images[1].sectors, 0);
    else is_as_it_was(what, null, &setup->ram, setup->images);
    expect(what, m.at != NULL, status == VMIG_OK);
    vmig_free(&m);
}

static void making(int null)
{
    vmig_image images[2];
    vmig_setup setup = setup_of(null, images);
    vmig_machine other = VMIG_NONE;

    if (null != NOTHING) {
        setup.version = 2;
        makes("another version", null, &setup, VMIG_NOT_KNOWN);
        setup.version = 1, setup.flags = 4;
        makes("an unknown flag", null, &setup, VMIG_NOT_KNOWN);
        setup.flags = 0, setup.count = 17;
        makes("too many devices", null, &setup, null & IS_RAM ? VMIG_BAD_RAM : VMIG_BAD_SHAPE);
        setup.count = 3, setup.base = 1;
        makes("a base that cannot be", null, &setup, null & IS_RAM ? VMIG_BAD_RAM : VMIG_BAD_BASE);
        setup.base = 0;
        expect("another one", make_new(1, DISKS, 1, &other), VMIG_OK);
        expect("is in use", vmig_make(&setup, &other), VMIG_IN_USE);
        vmig_free(&other);
    }
    makes("null", null, &setup, wanted(null));
}

/* ---- arriving -------------------------------------------------------------------------------------------------------------------- */

static void arrives(const char *what, int null, vmig_arrival *arrival, vmig_status status)
{
    vmig_machine m = VMIG_NONE;

    expect(what, vmig_arrive(arrival, &m), status);
    if (status != VMIG_OK) is_as_it_was(what, null, &arrival->ram, arrival->images);
    expect(what, m.at != NULL, status == VMIG_OK);
    vmig_free(&m);
}

/* With devices that are named, and with any. */
static void arriving(int null, size_t count)
{
    vmig_image images[2];
    vmig_arrival arrival = VMIG_ARRIVAL;
    vmig_machine other = VMIG_NONE;

    images_of(null, images);
    arrival.ram = ram_of(null), arrival.shapes = DISKS, arrival.count = count, arrival.images = images, arrival.count_images = 2;
    if (null != NOTHING) {
        arrival.zero = 1;
        arrives("a word that is not 0", null, &arrival, VMIG_NOT_KNOWN);
        arrival.zero = 0, arrival.most_pages = 1;
        arrives("pages beside RAM", null, &arrival, VMIG_BAD_RAM);
        arrival.most_pages = 0, arrival.base = 1;
        arrives("a base that cannot be", null, &arrival, null & IS_RAM ? VMIG_BAD_RAM : VMIG_BAD_BASE);
        arrival.base = 0;
        expect("another one", arrive_any(&other), VMIG_OK);
        expect("is in use", vmig_arrive(&arrival, &other), VMIG_IN_USE);
        vmig_free(&other);
    }
    arrives("null", null, &arrival, wanted(null));
}

/* ---- given back ------------------------------------------------------------------------------------------------------------------ */

static void giving_back(void)
{
    vmig_machine m = VMIG_NONE;
    vmig_ram ram = {room, sizeof room}, null = {NULL, sizeof room}, none = VMIG_NO_RAM;
    vmig_pages pages = VMIG_ALL_PAGES, unknown = VMIG_ALL_PAGES;

    unknown.zero = 1;
    expect("no machine", vmig_give_back(&m, &null, &pages), VMIG_NO_MACHINE);
    expect("make", make_over(&ram, DISKS + 1, 1, NULL, 0, &m), VMIG_OK);
    expect("it is not lent", vmig_give_back(&m, &null, &pages), VMIG_NOT_LENT);
    expect("null", vmig_lend(&m, &null), VMIG_BAD_RAM);
    expect("lend", vmig_lend(&m, &ram), VMIG_OK);
    expect("lent", vmig_lend(&m, &null), VMIG_LENT);
    expect("unknown pages", vmig_give_back(&m, &null, &unknown), VMIG_NOT_KNOWN);
    expect("null", vmig_give_back(&m, &null, &pages), VMIG_BAD_RAM);
    expect("null and empty", vmig_give_back(&m, &none, &pages), VMIG_BAD_RAM);
    expect("it is as it was", null.at == NULL && null.len == sizeof room && description_of(&m).lent == 1, 1);
    expect("back", vmig_give_back(&m, &ram, &pages), VMIG_OK);
    vmig_free(&m);
}

/* ---- pages ----------------------------------------------------------------------------------------------------------------------- */

/* A list or a bitmap that is null and has a count, or a bitmap without one; and two that are right. */
enum { NULL_LIST, NULL_BITMAP, NO_COUNT, WRONG, NO_PAGES = WRONG, BOTH, PAGES_CASES };

static vmig_pages pages_of(int wrong)
{
    static const uint32_t list[] = {0, 1};
    static const uint64_t word = 3;
    vmig_pages pages = vmig_list(wrong == BOTH ? list : NULL, wrong == BOTH ? 2 : 0);

    if (wrong == NULL_LIST) pages.count = 1;
    if (wrong == NULL_BITMAP) pages.count_words = 1;
    if (wrong == NO_COUNT || wrong == BOTH) pages.words = &word;
    if (wrong == BOTH) pages.count_words = 1;
    return pages;
}

/* What is refused before comes before, and what comes after them does not. */
static void in_order(vmig_machine *m, vmig_ram *ram, int wrong)
{
    static const uint32_t beyond[] = {PAGES};
    vmig_ram null = {NULL, sizeof room};
    vmig_machine none = VMIG_NONE;
    vmig_pages pages = pages_of(wrong);
    uint64_t seen[PAGES];

    expect("no machine", vmig_mark(&none, &pages), VMIG_NO_MACHINE);
    expect("a mark while RAM is lent", vmig_mark(m, &pages), VMIG_TOO_SMALL);
    expect("lent", vmig_push(m, &pages, room, sizeof room, seen, PAGES), VMIG_LENT);
    expect("null RAM", vmig_give_back(m, &null, &pages), VMIG_BAD_RAM);
    pages.zero = 1;
    expect("unknown", vmig_give_back(m, ram, &pages), VMIG_NOT_KNOWN);
    pages.zero = 0;
    if (wrong == NO_COUNT) pages.list = beyond, pages.count = 1;
    expect("beside no such page", vmig_give_back(m, ram, &pages), VMIG_TOO_SMALL);
    expect("it is lent still", ram->at == room && description_of(m).lent == 1, 1);
}

static void naming(void)
{
    vmig_machine m = VMIG_NONE;
    vmig_ram ram = {room, sizeof room};
    uint64_t seen[PAGES] = {7, 7};

    expect("make", make_over(&ram, DISKS + 1, 1, NULL, 0, &m), VMIG_OK);
    for (int wrong = 0; wrong < PAGES_CASES; wrong++) {
        vmig_pages pages = pages_of(wrong);
        vmig_status status = wrong < WRONG ? VMIG_TOO_SMALL : VMIG_OK;
        static uint8_t other[RAM];

        expect("not lent", vmig_give_back(&m, &ram, &pages), VMIG_NOT_LENT);
        expect("mark", vmig_mark(&m, &pages), status);
        expect("push", vmig_push(&m, &pages, other, sizeof other, seen, PAGES), status);
        expect("seen", seen[0] == 7 && seen[1] == 7, wrong != BOTH);
        expect("lend", vmig_lend(&m, &ram), VMIG_OK);
        if (wrong < WRONG) in_order(&m, &ram, wrong);
        expect("back", vmig_give_back(&m, &ram, &pages), status);
        if (status != VMIG_OK) expect("back", vmig_give_back(&m, &ram, &(vmig_pages)VMIG_NO_PAGES), VMIG_OK);
    }
    vmig_free(&m);
}

/* The calls of the library, by their addresses and by their names in brackets. */
static void by_address(void)
{
    vmig_status (*make)(vmig_setup *, vmig_machine *) = vmig_make;
    vmig_status (*arrive)(vmig_arrival *, vmig_machine *) = &vmig_arrive;
    vmig_status (*take_back)(vmig_machine *, vmig_ram *, const vmig_pages *) = vmig_give_back;
    vmig_image images[2];
    vmig_setup setup = setup_of(NOTHING, images);
    vmig_machine m = VMIG_NONE;
    vmig_ram ram = VMIG_NO_RAM;

    expect("make", make(&setup, &m), VMIG_OK);
    expect("lend", vmig_lend(&m, &ram), VMIG_OK);
    expect("back", take_back(&m, &ram, &(vmig_pages)VMIG_ALL_PAGES), VMIG_OK);
    expect("in use", (vmig_make)(&setup, &m), VMIG_IN_USE);
    vmig_free(&m);
    expect("arrive", arrive(&(vmig_arrival){.version = 1, .most_pages = 1, .flags = VMIG_LARGE}, &m), VMIG_OK);
    vmig_free(&m);
    expect("a struct with commas", vmig_make(&(vmig_setup){.version = 1, .pages = 1, .shapes = DISKS + 1, .count = 1}, &m), VMIG_OK);
    vmig_free(&m);
}

int main(void)
{
    for (int null = NOTHING; null < CASES; null++) {
        making(null);
        arriving(null, 3);
        arriving(null, 0);
    }
    giving_back();
    naming();
    by_address();
    return ended("null_lengths");
}
