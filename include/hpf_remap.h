/* Array remapping by copies: hpf_plan plans the copies of a routine, hpf_run runs a path through it, hpf_convert makes
 * a routine of directives, hpf_rounds tells what planning took.
 *
 * Memory    A call reads the bytes and writes the buffer that its caller lends. It keeps no state and takes no heap,
 *           and at most 64 KiB of stack. Any number of threads may call at once, each with a buffer of its own.
 *           Every call ends.
 * Pointers  Each points to as many bytes as the length beside it says; where that is 0 it may be null. The buffer
 *           must overlap nothing that the call reads; a routine and a path may overlap.
 * Numbers   In all formats numbers of several bytes are unsigned, low byte first. Bytes, arrays, versions, vertices and
 *           indices count from 0, the steps of a path from 1. A set of versions has 32 bits, bit k for version k.
 * Linking   C and C++ programs link libremap.a, which is for x86-64 Linux and needs at most memcpy and memset.
 *
 * What a call answers, P hpf_plan, R hpf_run, C hpf_convert, N hpf_rounds; a number with two reasons has a line for
 * each.
 *
 *   number  calls     what it says                                            first                       second
 *   ------  --------  ------------------------------------------------------  --------------------------  ------
 *      0    P R C N   done                                                    length written              0
 *
 *   The library's caller
 *      1    P C N     the buffer is too short                                 length needed               0
 *      2    R         the buffer is too short                                 length needed               0
 *
 *   The writer of the routine file
 *     10    P R N     the file has under 18 bytes                             its length                  0
 *                     its mark is not `HPFR`                                  0                           0
 *     11    P R N     the edition is not 1                                    4                           0
 *     12    P R N     a count is outside its limits                           its first byte: 8, 12, 16   0
 *     13    P R N     an offset is wrong                                      its first byte: 6, 10, 14   0
 *                     the file does not end with its last edge                18                          0
 *     14    P R N     array: kind above 3, versions not 1 to 32, initial      the byte                    0
 *                     version not below them, or last byte not zero
 *     15    P R N     action: unknown                                         the byte                    0
 *     16    P R N     edge: an end not below the vertex count, into the       its first byte              0
 *                     entry, out of the exit, or not above the edge before
 *     17    P R N     action: a remapping to, or a call with, a version       the byte                    0
 *                     not below the array's versions
 *     18    P R N     action: not 00 at entry or exit                         the byte                    0
 *     19    P R N     action: a reference, remapping or call where an         the byte                    0
 *                     earlier byte of its vertex is one of another sort
 *     22    P R N     the expanded routine has more than 256 vertices         how many                    0
 *
 *   The routine's programmer
 *     20    P R C N   an in argument is defined, modified, killed, or         vertex                      array
 *                     passed as out or inout
 *     21    P R C N   a reference or a call is ambiguous: two paths from      vertex                      array
 *                     the entry bring different versions to it
 *     41    C         an array has more than 32 mappings: that with which     array                       0
 *                     it starts, and all that a directive can give it on
 *                     some path from the entry
 *     42    C         a directive can leave an array that it remaps in two    vertex                      array
 *                     mappings
 *
 *   The writer of the directive file
 *     40    C         a field is wrong                                        its first byte              0
 *                     the file ends before a field does                       its length                  0
 *                     the file does not end with its last edge                the byte behind that        0
 *
 *   The writer of the path
 *     30    R         no vertex, or more than 4,096                           how many vertices           0
 *     31    R         the first vertex is not the entry                       0                           0
 *     32    R         no such edge: none leads to the vertex from the         its index in the path       0
 *                     one before it
 *
 * Checks run from 10 up, but 22 before 20; 1 and 2 come last. 17, 18 and 19 are checked with 15, byte by byte and
 * before 16: the first byte at fault by any of the four is named, by the lowest number if several faults meet in it.
 * hpf_convert checks 40, 41 and 42, then 20 and 21 on the routine that it makes, last 1. Within one number the lowest
 * byte, index or array wins, for 20, 21 and 42 the lowest vertex of the file and then the lowest array. A call that
 * answers 0 writes `first` bytes from the buffer's start and leaves the others as they were; any other answer leaves the
 * whole buffer as it was.
 */
#ifndef HPF_REMAP_H
#define HPF_REMAP_H

#include <stddef.h>
#include <stdint.h>

#ifdef __cplusplus
extern "C" {
#endif

typedef struct {
    uint64_t number, first, second;
} hpf_outcome;

/* Lengths in bytes that always suffice, and the most vertices of a path (two bytes each). Most reports are far
 * shorter: with an empty buffer (null, 0) hpf_run answers 2 and the length needed, as the other calls answer 1. */
#define HPF_LARGEST_DIRECTIVES 9334 /* 22 + 8 * 8 + 4 * 8 + 256 * (12 + 8) + 4 * 1024 */
#define HPF_LARGEST_ROUTINE 6194    /* 18 + 4 * 8 + 256 * 8 + 4 * 1024 */
#define HPF_LARGEST_PLAN 25608      /* 8 + 4 * 256 + 12 * 256 * 8 */
#define HPF_LARGEST_REPORT 330048   /* 8 * 8 + 10 * 4095 * 8 + 2 * 1192: at the entry stands no reference */
#define HPF_LARGEST_ROUNDS 12       /* 2 * 6 */
#define HPF_LONGEST_PATH 4096

/* The version of this header, and as a number: 0.8.0 is 800. The second number is that of the last request that the
 * library answers; as long as the first is 0, each of them may change the formats. */
#define HPF_VERSION_TEXT "0.8.0"
#define HPF_VERSION 800

/* The numbers in the formats. To the four actions below the line the version is added. */
enum {
    HPF_LOCAL = 0, /* kinds of arrays */
    HPF_IN = 1,
    HPF_OUT = 2,
    HPF_INOUT = 3,

    HPF_NOTHING = 0x00, /* actions */
    HPF_READ = 0x10,
    HPF_DEFINE = 0x20,
    HPF_MODIFY = 0x30,
    HPF_KILL = 0x80,
    /* ---- */
    HPF_REMAP_TO = 0x40,
    HPF_CALL_IN = 0x60,
    HPF_CALL_OUT = 0xa0,
    HPF_CALL_INOUT = 0xc0,

    HPF_LETTER_N = 'N', /* uses of labels */
    HPF_LETTER_D = 'D',
    HPF_LETTER_R = 'R',
    HPF_LETTER_W = 'W',

    HPF_KIND_READ = 1, /* kinds of references in a report */
    HPF_KIND_DEFINE = 2,
    HPF_KIND_MODIFY = 3,
    HPF_KIND_KILL = 4,

    HPF_NONE = 255, /* no version: of a dropped label, or of an array without a current copy */
    HPF_NEVER_GIVEN = 0, /* stamps */
    HPF_CALLERS_STAMP = 65535
};

/* Every refusal: its name, its number, and what it says. */
#define HPF_REFUSALS(refusal) \
    refusal(HPF_SHORT_BUFFER, 1, "the buffer is too short") \
    refusal(HPF_SHORT_REPORT, 2, "the buffer of the report is too short") \
    refusal(HPF_WRONG_MARK, 10, "the routine is too short, or its mark is wrong") \
    refusal(HPF_WRONG_EDITION, 11, "the edition is not known") \
    refusal(HPF_WRONG_COUNT, 12, "a count is outside its limits") \
    refusal(HPF_WRONG_OFFSET, 13, "an offset or the length is wrong") \
    refusal(HPF_WRONG_ARRAY, 14, "a byte of an array is wrong") \
    refusal(HPF_UNKNOWN_ACTION, 15, "an action is unknown") \
    refusal(HPF_WRONG_EDGE, 16, "an edge is wrong") \
    refusal(HPF_VERSION_TOO_LARGE, 17, "a version is not below the number of its array's versions") \
    refusal(HPF_ACTION_AT_END, 18, "entry or exit has an action") \
    refusal(HPF_MIXED_ACTIONS, 19, "a vertex has two of references, remappings and calls") \
    refusal(HPF_WRITES_IN_ARGUMENT, 20, "an in argument is written or killed, or passed to be written") \
    refusal(HPF_AMBIGUOUS, 21, "a reference or a call is ambiguous") \
    refusal(HPF_TOO_MANY_VERTICES, 22, "there are too many vertices once calls are expanded") \
    refusal(HPF_WRONG_PATH_LENGTH, 30, "the path has no vertex, or too many of them") \
    refusal(HPF_WRONG_START, 31, "the path does not start at the entry") \
    refusal(HPF_NO_SUCH_EDGE, 32, "a step of the path is no edge") \
    refusal(HPF_MALFORMED_DIRECTIVES, 40, "the directive file is malformed") \
    refusal(HPF_TOO_MANY_MAPPINGS, 41, "an array has too many mappings") \
    refusal(HPF_TWO_MAPPINGS, 42, "a directive can leave an array in two mappings")

enum {
#define HPF_REFUSAL_NUMBER(name, number, text) name = number,
    HPF_REFUSALS(HPF_REFUSAL_NUMBER)
#undef HPF_REFUSAL_NUMBER
    HPF_DONE = 0
};

/* Two words about the library, from bindings/c/words.c: `make install` adds them to the library that it installs. The
 * archive that the kit writes has only what is proved, and so neither of them.
 *
 *   hpf_version  the version of the library that the program runs with, as HPF_VERSION is that of the header.
 *   hpf_text     what the number of a refusal says, without its places; null for any other number. */
uint32_t hpf_version(void);
const char *hpf_text(uint64_t number);

/* Plans a routine.
 *
 *   routine        bytes  of A arrays, V vertices and E edges
 *   -------------  -----  ----------------------------------------------------------------------------------------
 *   0              4      `HPFR`
 *   4              2      edition, 1
 *   6, 8           2, 2   arrays: offset, 18; count A, 1 to 8
 *   10, 12         2, 2   vertices: offset, 18 + 4A; count V, 2 to 256
 *   14, 16         2, 2   edges: offset, 18 + 4A + VA; count E, 0 to 1,024
 *   18             4A     for each array: kind (0 local, 1 in, 2 out, 3 inout; the last three are arguments),
 *                         number of versions (1 to 32), initial version (below that number), zero
 *   18 + 4A        VA     for each vertex an action for each array: hexadecimal 00 nothing; 10 read, 20 define (all
 *                         of it rewritten, nothing read), 30 modify (old value needed) and 80 kill (its value is
 *                         dead), which are references; with k below 32, 40+k remap to version k; 60+k, A0+k, C0+k a
 *                         call of another routine, which gets the array in version k with intent in, out or inout. A
 *                         vertex has references, remappings or calls, never two of these sorts. Vertex 0 is the
 *                         entry, the last is the exit; their actions are all 00
 *   18 + 4A + VA   4E     for each edge: from (2), to (2), below V. Edges strictly rise by from, then to; none enters
 *                         the entry, none leaves the exit. With the last the file ends
 *
 * A kill is the programmer's word that no value of the array is needed any more until it is defined again. It is a
 * define in every rule below, but gives no value: what is then read or modified sees stamp 0. So a label before it is D
 * where nothing needs the old value earlier, and nothing is copied there.
 *
 * A vertex with calls becomes three, which the arrays that it passes share. The first remaps each of them to the
 * version k in which it is passed; the second reads it (intent in), defines it (out) or modifies it (inout); the third
 * remaps it back to the version that the source names before the call, or to the initial one if no path gets there. An
 * array that the vertex does not pass has 00 at all three. Edges to the vertex lead to the first, edges from it leave
 * the third. All vertices are numbered anew, in the order of the file: this is the expanded routine. It has at most 256
 * vertices (else 22) and at most 1,192 edges. A routine without calls is its own expanded routine.
 *
 * The expanded routine is what is planned and run: the vertices of plan and path, the steps, and the index that 32
 * names are of it. 20 and 21 name vertices of the file; there a call is no remapping, but hands on every version that
 * comes to it.
 *
 * Routine K, for example: an inout argument and an in argument, each of 2 versions, initial 0; vertex 1 has C1 61, 2
 * has 10 10, 3 is the exit; edges 0-1, 1-2, 2-1, 2-3. Its expanded routine: 1 has 41 41, 2 has 30 10, 3 has 40 40, 4
 * has 10 10, 5 is the exit; edges 0-1, 1-2, 2-3, 3-4, 4-1, 4-5.
 *
 *   plan           bytes  of the expanded routine, V vertices and L labels
 *   -------------  -----  ----------------------------------------------------------------------------------------
 *   0              4      `HPF2`
 *   4, 6           2, 2   V, L
 *   8              4V     for each vertex: index of its first label (2), how many it has (2); a vertex without labels
 *                         gives the index that its first would have had
 *   8 + 4V         12L    for each label, by vertex, then array:
 *     + 0, 1              array; use: one of the letters N, D, R, W
 *     + 2, 3              leaving version, 255 for none; zero
 *     + 4, 8       4, 4   reaching set; kept set
 *
 * A label is a remapping of the expanded routine: each action 40+k there, and one to the initial version of every array
 * at the entry and of every out and inout argument at the exit. Its segments are the paths from it that go no further
 * than the array's next label.
 *
 *   N         no segment meets a reference: the label is dropped, and nothing is copied there;
 *   D         not N, and none meets a read, a modify or the next label without a define before it: no value is copied;
 *   R         some segment meets a read, none a define or modify: other copies keep the same value;
 *   W         all else, and at the exit.
 *   leaving   the label's version, in which the array goes on from there; none for N.
 *   reaching  the leaving versions of the last kept labels (those not N) before the vertex on paths from the entry, and
 *             for in and inout the initial version where a path has none; empty if no path reaches the vertex.
 *   kept      the versions whose copies stay live: the leaving version, and that of each label that some path arrives
 *             at while every label from here up to it, here included and it excluded, is N or R.
 */
hpf_outcome hpf_plan(const uint8_t *routine, size_t routine_len, uint8_t *plan, size_t plan_len);

/* What the translated routine does by its plan. For each array it has a current version, or none, and for each version
 * a flag: live or dead. Arrays do not depend on each other.
 *
 *   start      An in or inout argument is current and live in its initial version: the caller's copy. Of any other
 *              array no version is current and none is live.
 *   label      If the letter is not N, and the leaving version t is not current: where t is dead, the letter is not D
 *              and a version is current, that one is copied to t (nothing else is ever copied); t is live and current.
 *              Then, at N too: each live version that is neither current nor in the kept set is dead, and its memory
 *              may be freed. An argument's initial version is the caller's: only its flag changes.
 *   reference  The current version is used, which is that of the array's last label on every path there (else 21). No
 *              flag changes, at a write either: the label before it left no other version live.
 *   exit       The labels of out and inout arguments are served as any others, so that these end in the caller's copy.
 *              An in argument has no label there: it loses every copy but the caller's, which is live and current, and
 *              nothing is copied. It holds what the caller gave: its stamp is 65,535. Of a local array no version is
 *              then current and none live.
 *
 * Routine Q, for example: one inout argument, 2 versions, initial 0; vertices 1 remap 1, 2 define, 3 remap 0, 4 read,
 * 5 exit; edges 0-1, 1-2, 1-3, 2-3, 3-4, 4-5. Its labels:
 *
 *   vertex  use  leave  reach     keep
 *   0       N    -      00000001  00000002
 *   1       W    1      00000001  00000002   not D: along 1-3 nothing is defined
 *   3       R    0      00000002  00000001
 *   5       W    0      00000001  00000001
 *
 * Two paths, 0 1 3 4 and 0 1 2 3 4. Stamps, of version 0 and version 1, tell values as they do in a report (below);
 * that of a version which dies becomes 0, but the caller's copy keeps its own.
 *
 *   step  vertex  what is done                 current  live      stamps         copies
 *                 at the start                 0        00000001  65535  0       0
 *   1     0       N; 0 is current, and stays   0        00000001  65535  0       0
 *   2     1       0 copied to 1; 0 is dead     1        00000002  65535  65535   1
 *   3     3       1 copied to 0; 1 is dead     0        00000001  65535  0       2
 *   4     4       read of 0 sees 65535         0        00000001  65535  0       2
 *
 *   1, 2  0, 1    as above
 *   3     2       define of 1 gives 3          1        00000002  65535  3       1
 *   4     3       1 copied to 0; 1 is dead     0        00000001  3      0       2
 *   5     4       read of 0 sees 3             0        00000001  3      0       2
 *
 * Had 0 stayed live at vertex 1, nothing would have been copied at 3, and the last read would have seen 65535.
 */

/* Runs a path through a routine, which it plans itself: by the rule above, with stamps in place of values.
 *
 *   path           bytes
 *   -------------  -----  ----------------------------------------------------------------------------------------
 *   0              2      for each vertex of the expanded routine its number, the entry first, each next one along an
 *                         edge. The path may end at any vertex, inside a call too; an odd last byte is ignored
 *
 * path_len counts bytes, as every length here does: two for each vertex. A caller who hands over the number of vertices
 * has half the path run, and is answered 0.
 *
 *   report         bytes  of A arrays, N references and the F edges of the expanded routine
 *   -------------  -----  ----------------------------------------------------------------------------------------
 *   0              8A     for each array, after the last step:
 *     + 0, 2       2, 4   copies made; set of live versions
 *     + 6, 7              current version, 255 for none; zero
 *   8A             10N    for each reference on the path, by step, then array:
 *     + 0          2      step; the entry is step 1
 *     + 2, 3              array; version that is used
 *     + 4, 5              kind: 1 read, 2 define, 3 modify, 4 kill; zero
 *     + 6          2      stamp seen by a read or modify; 0 for a define or kill
 *     + 8          2      new stamp, given by a define or modify: the step; 0 for a read, and for a kill, which gives 0
 *   8A + 10N       2F     for each edge of the expanded routine, rising by from, then to: how often the path passes it
 *
 * F is E, and 2 more for each vertex of the file with calls: edges inside a call stand among the others. So N is
 * (length - 8A - 2F) / 10. The counts stand there too where the path has no reference; their total is the number of the
 * path's vertices less one.
 *
 * A stamp tells a value: it is the step that gave it, 65,535 for what the caller gave (in and inout), 0 for what was
 * never given or is killed.
 */
hpf_outcome hpf_run(const uint8_t *routine, size_t routine_len,
                    const uint8_t *path, size_t path_len, /* in bytes: twice the number of vertices */
                    uint8_t *report, size_t report_len);

/* Converts a directive file to a routine, so that no version has to be numbered by hand.
 *
 * A directive file has the mark `HPFD`, 1 to 8 templates, and arrays, vertices and edges as many as a routine may have.
 * `distribute` and `align` say how each template is spread and how each array is aligned at the start; at a vertex
 * stands a `redistribute`, a `realign`, references or nothing. docs/DIRECTIVES.md has every byte of it and what the
 * directives mean. It has no calls.
 *
 * The routine has the same arrays, vertices, references and edges, by the same numbers. Version 0 of an array is the
 * mapping with which it starts; the others are numbered by the lowest vertex whose directive gives them. Two mappings
 * are one version if both dimensions of the array are spread alike as written, by whatever template. A realign becomes
 * a remapping of its array, a redistribute a remapping of each array that some path from the entry brings aligned with
 * its template, also where the mapping stays as it was. Every other array has 00 there, and so has every array at a
 * directive that no path from the entry reaches: that gives no version.
 *
 * At each reference on a path from the entry the mapping that the directives give is that of the version which the
 * routine names. hpf_plan and hpf_run refuse no routine that hpf_convert writes.
 *
 * For example: template T(block, *); a local array aligned with it, straight; 1 define, 2 redistribute T(cyclic(3), *),
 * 3 read, 4 exit; edges 0-1, 1-2, 2-3, 3-4. In the routine the array has 2 versions, initial 0; its actions are 00, 20,
 * 41, 10, 00.
 */
hpf_outcome hpf_convert(const uint8_t *directives, size_t directives_len, uint8_t *routine, size_t routine_len);

/* Tells how many rounds over the edges each pass of the planner takes for a routine. It answers as hpf_plan does, but 1
 * by the length of the rounds.
 *
 * A pass finds a set for each vertex and array. A round takes every edge once that could alter a set, and hands on what
 * is known at its one end to the other; the pass ends with the first round that alters no set. That round counts too:
 * every earlier one altered a set. So a pass that is made has at least 1, and at most its vertices and one more. Where
 * each vertex but the entry is entered from an earlier one all are reached: no pass looks for them, its number is 0.
 *
 *   rounds         bytes  of a routine without calls
 *   -------------  -----  ----------------------------------------------------------------------------------------
 *   0, 2, 4, 6     2 each letters (what segments meet); reached vertices; reaching sets; kept sets
 *
 *   rounds         bytes  of a routine with calls
 *   -------------  -----  ----------------------------------------------------------------------------------------
 *   0, 2           2 each reached vertices and versions that arrive at the calls, of the file
 *   4, 6, 8, 10    2 each letters, reached vertices, reaching sets and kept sets, of the expanded routine
 *
 * This is the order in which the passes are made. In which order a round takes the edges is the library's own: the
 * numbers are those of that order, and may be others in another edition of the library. The plan is the same with any.
 *
 * Two or three is ordinary. As many as vertices tells that a fact travels by one vertex a round, against the order in
 * which the edges are taken; numbering vertices in the order in which paths mostly pass them helps.
 */
hpf_outcome hpf_rounds(const uint8_t *routine, size_t routine_len, uint8_t *rounds, size_t rounds_len);

#ifdef __cplusplus
}
#endif

#endif
