/*
 * The angles of a table with eight stations, kept through the set-associative cache.
 *
 * A station has two bytes, high byte first: its angle in hundredths of a degree. The program writes all of them, reads
 * them back, and asks for one address past the memory. It prints every request with its result, and the memory. It
 * ends with status 1 if anything is not as it must be.
 */

#include <stdio.h>
#include <string.h>

#include "volleyholly.h"

enum { STATIONS = 8, BYTES = 2 * STATIONS, REQUESTS = 2 * BYTES + 1, MEMORY = 32, CLOCKS = 3 };

static int failures = 0;

static void expect(int holds, const char *what)
{
    if (!holds) {
        printf("NOT AS EXPECTED: %s\n", what);
        failures++;
    }
}

static uint8_t angle_byte(unsigned address)
{
    unsigned angle = address / 2 * 36000 / STATIONS;
    return (uint8_t)(address % 2 == 0 ? angle / 256 : angle % 256);
}

static void put_request(uint8_t *word, unsigned mode, unsigned address, uint8_t data)
{
    word[0] = (uint8_t)(128 + 32 * mode);
    word[1] = (uint8_t)(address / 256);
    word[2] = (uint8_t)(address % 256);
    word[3] = data;
}

static void make_list(uint8_t *list)
{
    for (unsigned address = 0; address < BYTES; address++) {
        put_request(list + 4 * address, 1, address, angle_byte(address));
        put_request(list + 4 * (BYTES + address), 0, address, 0);
    }
    put_request(list + 4 * (REQUESTS - 1), 0, MEMORY, 0);
}

static void print_bytes(const uint8_t *bytes, size_t count)
{
    for (size_t i = 0; i < count; i++) {
        printf(" %02X", bytes[i]);
    }
}

static void print_results(const uint8_t *list, const uint8_t *results)
{
    for (size_t i = 0; i < REQUESTS; i++) {
        printf("%2zu ", i + 1);
        print_bytes(list + 4 * i, 4);
        printf("  ->");
        print_bytes(results + 8 * i, 8);
        printf("\n");
    }
}

/* The first write to a block is a miss and costs 22 clocks; all else that is accepted is a hit and costs 1. */
static void check_results(const uint8_t *results)
{
    for (unsigned i = 0; i < 2 * BYTES; i++) {
        unsigned address = i % BYTES;
        unsigned clocks = i < BYTES && address % 4 == 0 ? 1 + 4 * (2 + CLOCKS) + 1 : 1;
        uint8_t wanted[8] = {0, angle_byte(address), 0, (uint8_t)address, 0, 0, 0, (uint8_t)clocks};
        expect(memcmp(results + 8 * i, wanted, 8) == 0, "a write or a read");
    }
    uint8_t refused[8] = {128 + 1, 1, 0, MEMORY, 0, 0, 0, 0};
    expect(memcmp(results + 8 * (REQUESTS - 1), refused, 8) == 0, "the read past the memory");
    expect(results[8 * REQUESTS] == 0xEE, "the byte past the last result");
}

static void check_memory(const uint8_t *memory)
{
    for (unsigned address = 0; address < MEMORY; address++) {
        uint8_t wanted = address < BYTES ? angle_byte(address) : 0xFF;
        expect(memory[address] == wanted, "a byte of the memory");
    }
}

int main(void)
{
    uint8_t memory[MEMORY];
    uint8_t list[4 * REQUESTS];
    uint8_t results[8 * REQUESTS + 1];

    memset(memory, 0xFF, sizeof memory);
    memset(results, 0xEE, sizeof results);
    make_list(list);

    uint32_t number = volleyholly_run(9, memory, sizeof memory, CLOCKS, list, sizeof list, results, sizeof results);
    expect(number == VOLLEYHOLLY_BAD_PILE && memory[0] == 0xFF && results[0] == 0xEE, "pile 9 is refused");

    number = volleyholly_run(VOLLEYHOLLY_SET_ASSOCIATIVE_FIFO, memory, sizeof memory, CLOCKS, list, sizeof list,
                             results, sizeof results);
    expect(number == VOLLEYHOLLY_DONE, "the list is run");

    print_results(list, results);
    printf("memory:");
    print_bytes(memory, sizeof memory);
    printf("\n");

    check_results(results);
    check_memory(memory);
    if (failures > 0) {
        printf("%d not as expected\n", failures);
        return 1;
    }
    printf("all as expected\n");
    return 0;
}
