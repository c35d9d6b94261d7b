/* Hands the proved functions to the benchmark, which times them beside the Rust ones. Built and run by ./compare/bench. */
#include <stddef.h>
#include <stdint.h>

/* The proved functions: crates/entry, by the archive of crates/entry_c. A slice is a pointer and a length. */
uint64_t quyetlumon_read(const uint8_t *bytes, size_t count, uint16_t *out, size_t places);
uint64_t quyetlumon_check(const uint16_t *table, size_t count);
uint64_t quyetlumon_judge(const uint16_t *table, size_t numbers, const uint16_t *tail, size_t tokens, uint32_t *room, size_t words);

/* A side of the benchmark: compare/src/speed/sides.rs. */
struct side {
    uint64_t (*read)(const uint8_t *, size_t, uint16_t *, size_t);
    uint64_t (*check)(const uint16_t *, size_t);
    uint64_t (*judge)(const uint16_t *, size_t, const uint16_t *, size_t, uint32_t *, size_t);
};

int32_t compare_speed(const struct side *proved);

int main(void) {
    static const struct side proved = {quyetlumon_read, quyetlumon_check, quyetlumon_judge};
    return compare_speed(&proved);
}
