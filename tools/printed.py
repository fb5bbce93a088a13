"""What statistics are on the wire, and what is printed of them: pages and JSON that were worked out by their rules, apart from the program."""
import json

from spelled import frame, items, pairs, text, time, u32, u64

LARGEST = 2**64 - 1


def option(number):
    return b"\0" if number is None else b"\1" + u64(number)


def level(name, location, numbers, hits=time(0, 0), writes=time(0, 0)):
    """A level by its hits, misses, writes, failed writes, and backfills from it and to it, and by the time of its hits and writes."""
    return text(name) + text(location) + b"".join(map(u64, numbers)) + hits + writes


def levels(*spelled):
    return b"\1" + items(spelled)


def told(stats, location=b"", size=None, most=None, uses_preprocessor=False, basedirs=()):
    """The frame of statistics, with what a store tells of itself."""
    of_store = text(location) + option(size) + option(most) + bytes([uses_preprocessor]) + text(b"0.19.0")
    return frame(u32(2) + stats + of_store + items([text(basedir) for basedir in basedirs]))


def handshake(mode):
    """The frame of a handshake, for its mode: 0 where the store is only read."""
    return frame(u32(6) + text(b"l") + text(b"t") + items([]) + b"\0" + u32(mode) + b"\0")


def stats_of(numbers, errors, hits, misses, lookups, writes, compiles, reasons, jobs, lost, by_level):
    """Statistics in the order in which their fields are spelled."""
    return b"".join((*map(u64, numbers), errors, hits, misses, *map(u64, lookups), writes, compiles, reasons, jobs, u64(lost), by_level))


NO_PAIRS = pairs() + pairs()
NOTHING = stats_of([0] * 5, NO_PAIRS, NO_PAIRS, NO_PAIRS, [0] * 6, time(0, 0) * 2, u64(0) + time(0, 0) + u64(0), pairs(), pairs(), 0, b"\0")

# Statistics with all that is printed.
PRINTED = stats_of(
    [LARGEST, 2, 3, 4, 5],
    pairs((b"Rust", 4)) + pairs((b"rust", 4)),
    pairs((b"C/C++", 1), ("Größenwahnsinn".encode(), 2)) + pairs((b"c [gcc]", 1), ("größenwahnsinn [gcc]".encode(), 2)),
    pairs((b"C/C++", 799)) + pairs((b"c [gcc]", 799)),
    [6, 7, 8, 9, 10, 2**32],
    time(2**32, 0) + time(3, 2),
    u64(1) + time(0, 1999999) + u64(16),
    pairs((b"-", 2), (b"a", 2), (b"b", 2), ("é".encode(), 3)),
    pairs((b"one", 1), ("zwölf".encode(), 12)),
    17,
    levels(level(b"L0 (disk)", "/ö".encode(), [1, 3, 2, 5, 6, 7], time(0, 5), time(3, 0)), level("Lé".encode(), b"redis", [0] * 6)),
)

# Statistics in which each field has a number of its own.
OWN = stats_of(
    [LARGEST, 2, 3, 4, 5],
    pairs((b"Rust", 6)) + pairs((b"rust", 6)),
    pairs((b"C/C++", 7)) + pairs((b"c [gcc]", 7)),
    pairs(("Größe".encode(), 8)) + pairs(("größe".encode(), 8)),
    [9, 10, 11, 12, 13, 14],
    time(15, 16) + time(17, 18),
    u64(19) + time(20, 999999999) + u64(21),
    pairs((b"a", 23), (b"b", 22)),
    pairs(("é".encode(), 24)),
    25,
    levels(level(b"L0 (disk)", "/ö".encode(), range(26, 32), time(0, 32), time(33, 0)), level("Lé".encode(), b"", [0] * 6)),
)


def json_of(value):
    """A JSON without spaces, whose keys rise."""
    return json.dumps(value, ensure_ascii=False, separators=(",", ":"), sort_keys=True).encode()


def languages(kinds, compilers):
    return {"counts": kinds, "adv_counts": compilers}


def span(seconds, nanoseconds):
    return {"secs": seconds, "nanos": nanoseconds}


def json_level(name, location, numbers, hits, writes):
    names = ("hits", "misses", "writes", "write_failures", "backfills_from", "backfills_to")
    return {"name": name, "location": location, **dict(zip(names, numbers)), "hit_duration": hits, "write_duration": writes}


OWN_JSON = json_of({
    "stats": {
        "compile_requests": LARGEST,
        "requests_unsupported_compiler": 2,
        "requests_not_compile": 3,
        "requests_not_cacheable": 4,
        "requests_executed": 5,
        "cache_errors": languages({"Rust": 6}, {"rust": 6}),
        "cache_hits": languages({"C/C++": 7}, {"c [gcc]": 7}),
        "cache_misses": languages({"Größe": 8}, {"größe": 8}),
        "cache_timeouts": 9,
        "cache_read_errors": 10,
        "non_cacheable_compilations": 11,
        "forced_recaches": 12,
        "cache_write_errors": 13,
        "cache_writes": 14,
        "cache_write_duration": span(15, 16),
        "cache_read_hit_duration": span(17, 18),
        "compilations": 19,
        "compiler_write_duration": span(20, 999999999),
        "compile_fails": 21,
        "not_cached": {"a": 23, "b": 22},
        "dist_compiles": {"é": 24},
        "dist_errors": 25,
        "multi_level": [
            json_level("L0 (disk)", "/ö", range(26, 32), span(0, 32), span(33, 0)),
            json_level("Lé", "", [0] * 6, span(0, 0), span(0, 0)),
        ],
    },
    "cache_location": 'Local disk: "/x"',
    "cache_size": 1536,
    "max_cache_size": 2560,
    "use_preprocessor_cache_mode": True,
    "version": "0.19.0",
    "basedirs": ["/a", "/ö"],
    "effective_cache_mode": "ReadOnly",
})

NOTHING_JSON = b'{"basedirs":[],"cache_location":"","cache_size":null,"effective_cache_mode":"ReadWrite","max_cache_size":null,"stats":{"cache_errors":{"adv_counts":{},"counts":{}},"cache_hits":{"adv_counts":{},"counts":{}},"cache_misses":{"adv_counts":{},"counts":{}},"cache_read_errors":0,"cache_read_hit_duration":{"nanos":0,"secs":0},"cache_timeouts":0,"cache_write_duration":{"nanos":0,"secs":0},"cache_write_errors":0,"cache_writes":0,"compilations":0,"compile_fails":0,"compile_requests":0,"compiler_write_duration":{"nanos":0,"secs":0},"dist_compiles":{},"dist_errors":0,"forced_recaches":0,"multi_level":null,"non_cacheable_compilations":0,"not_cached":{},"requests_executed":0,"requests_not_cacheable":0,"requests_not_compile":0,"requests_unsupported_compiler":0},"use_preprocessor_cache_mode":false,"version":"0.19.0"}'

# What is printed of statistics that count nothing.
NOTHING_PAGE = """\
Compile requests                      0
Compile requests executed             0
Cache hits                            0
Cache misses                          0
Cache hits rate                       -
Cache timeouts                        0
Cache read errors                     0
Forced recaches                       0
Cache write errors                    0
Cache errors                          0
Compilations                          0
Compilation failures                  0
Non-cacheable compilations            0
Non-cacheable calls                   0
Non-compilation calls                 0
Unsupported compiler calls            0
Average cache write               0.000 s
Average compiler                  0.000 s
Average cache read hit            0.000 s
Failed distributed compilations       0
"""
NO_STORE = "Cache location".ljust(32) + """
Base directories                (none)
Version (client)                0.19.0
"""

# What is printed by the languages' kinds.
PAGE_BY_KIND = """\
Compile requests                   18446744073709551615
Compile requests executed                             5
Cache hits                                            3
Cache hits (C/C++)                                    1
Cache hits (Größenwahnsinn)                           2
Cache misses                                        799
Cache misses (C/C++)                                799
Cache hits rate                                    0.37 %
Cache hits rate (C/C++)                            0.12 %
Cache hits rate (Größenwahnsinn)                 100.00 %
Cache timeouts                                        6
Cache read errors                                     7
Forced recaches                                       9
Cache write errors                                   10
Cache errors                                          4
Cache errors (Rust)                                   4
Compilations                                          1
Compilation failures                                 16
Non-cacheable compilations                            8
Non-cacheable calls                                   4
Non-compilation calls                                 3
Unsupported compiler calls                            2
Average cache write                               1.000 s
Average compiler                                  0.001 s
Average cache read hit                            1.000 s
Failed distributed compilations                      17
Multi-level cache levels                              2
  L0 (disk) hits                                      1
  L0 (disk) misses                                    3
  L0 (disk) hit rate                              25.00 %
  L0 (disk) writes                                    2
  L0 (disk) write failures                            5
  L0 (disk) backfills from                            6
  L0 (disk) backfills to                              7
  L0 (disk) avg cache write                       1.500 s
  L0 (disk) avg cache read hit                    0.000 s
  Lé hits                                             0
  Lé misses                                           0
  Lé hit rate                                         -
  Lé writes                                           0
  Lé write failures                                   0
  Lé backfills from                                   0
  Lé backfills to                                     0
  Lé avg cache write                              0.000 s
  Lé avg cache read hit                           0.000 s

Successful distributed compiles
  zwölf                                              12
  one                                                 1

Non-cacheable reasons:
é                                                     3
-                                                     2
a                                                     2
b                                                     2

Cache location                     Local disk: "/x"
  L0 (disk)                        /ö
  Lé                               redis
Base directories                   /a, /ö
Use direct/preprocessor mode?      yes
Version (client)                   0.19.0
Cache size                                            2 KiB
Max cache size                                        2 KiB
"""

# What is printed by languages and compilers.
PAGE_BY_COMPILER = """\
Compile requests                         18446744073709551615
Compile requests executed                                   5
Cache hits                                                  3
Cache hits (c [gcc])                                        1
Cache hits (größenwahnsinn [gcc])                           2
Cache misses                                              799
Cache misses (c [gcc])                                    799
Cache hits rate                                          0.37 %
Cache hits rate (c [gcc])                                0.12 %
Cache hits rate (größenwahnsinn [gcc])                 100.00 %
Cache timeouts                                              6
Cache read errors                                           7
Forced recaches                                             9
Cache write errors                                         10
Cache errors                                                4
Cache errors (rust)                                         4
Compilations                                                1
Compilation failures                                       16
Non-cacheable compilations                                  8
Non-cacheable calls                                         4
Non-compilation calls                                       3
Unsupported compiler calls                                  2
Average cache write                                     1.000 s
Average compiler                                        0.001 s
Average cache read hit                                  1.000 s
Failed distributed compilations                            17
Multi-level cache levels                                    2
  L0 (disk) hits                                            1
  L0 (disk) misses                                          3
  L0 (disk) hit rate                                    25.00 %
  L0 (disk) writes                                          2
  L0 (disk) write failures                                  5
  L0 (disk) backfills from                                  6
  L0 (disk) backfills to                                    7
  L0 (disk) avg cache write                             1.500 s
  L0 (disk) avg cache read hit                          0.000 s
  Lé hits                                                   0
  Lé misses                                                 0
  Lé hit rate                                               -
  Lé writes                                                 0
  Lé write failures                                         0
  Lé backfills from                                         0
  Lé backfills to                                           0
  Lé avg cache write                                    0.000 s
  Lé avg cache read hit                                 0.000 s

Successful distributed compiles
  zwölf                                                    12
  one                                                       1

Non-cacheable reasons:
é                                                           3
-                                                           2
a                                                           2
b                                                           2

Cache location                           Local disk: "/x"
  L0 (disk)                              /ö
  Lé                                     redis
Effective cache mode                     ReadOnly
Base directories                         /a, /ö
Use direct/preprocessor mode?            yes
Version (client)                         0.19.0
Cache size                                                  2 KiB
Max cache size                                              2 KiB
"""

# What of a size is printed.
SIZES = {1023: "1023 bytes", 1536: "2 KiB", 2560: "2 KiB", LARGEST: "16 EiB"}

# What of a level's hits and misses is printed.
RATES = {(0, 0): "-", (0, 1): "0.00 %", (1, 3): "25.00 %", (1, 799): "0.12 %", (3, 797): "0.38 %", (LARGEST, LARGEST): "50.00 %"}

# How distributed compilation stands, and its JSON.
STANDING = {
    u32(0) + text(b"disabled"): b'{"Disabled":"disabled"}',
    u32(1) + b"\0" + text(b"x"): b'{"NotConnected":[null,"x"]}',
    u32(2) + b"\1" + text(b"http://s") + u64(1) + u64(8) + u64(3): b'{"SchedulerStatus":["http://s",{"in_progress":3,"num_cpus":8,"num_servers":1}]}',
}
