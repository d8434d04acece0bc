/*
 * The regulator's three questions about a film of hoses: which tracks the movie holds, which bytes show the second
 * hose, and whether the film time filed adds up. Of the film, which may have any size, only the headers at top level and
 * the moov are read. A refusal is printed by its number, and then the exit status is 1; it is 2 where the film cannot be
 * read.
 *
 *     cc -std=c99 -Iinclude examples/c/hoses.c -Lhost/target/library -lchaldoref -o hoses
 *     ./hoses films/two-hoses.mov
 */
/* For files of any size. */
#define _FILE_OFFSET_BITS 64
#define _POSIX_C_SOURCE 200809L

#include <chaldoref.h>

#include <inttypes.h>
#include <stdio.h>
#include <stdlib.h>

/* The track that films the second hose. */
#define SECOND_HOSE 2

/* The moov of a film, which has its tables, and the length of its file. */
struct film {
    uint8_t *moov;
    size_t len;
    uint64_t length;
};

struct track_list {
    struct chaldoref_track tracks[CHALDOREF_MAX_TRACKS];
    size_t count;
};

/* Ends the program, which has nothing better to do with a failure. */
static void fail(const char *what)
{
    fprintf(stderr, "hoses: %s\n", what);
    exit(2);
}

/* The exit status: 1 once something was refused. */
static int status = EXIT_SUCCESS;

static void print_refusal(uint32_t refusal)
{
    printf("refused %" PRIu32 "\n", refusal);
    status = 1;
}

/* Memory for so many elements. The library asks for a pointer that is not NULL also where there are none. */
static void *lend(size_t count, size_t size)
{
    void *memory = calloc(count > 0 ? count : 1, size);
    if (memory == NULL)
        fail("not enough memory");
    return memory;
}

/* Reads so many bytes of a file from a place on. */
static void read_at(FILE *file, uint64_t place, uint8_t *bytes, size_t len)
{
    if (fseeko(file, (off_t)place, SEEK_SET) != 0 || fread(bytes, 1, len, file) != len)
        fail("the film cannot be read");
}

static uint64_t length_of(FILE *file)
{
    if (fseeko(file, 0, SEEK_END) != 0)
        fail("the film cannot be read");
    off_t length = ftello(file);
    if (length < 0)
        fail("the film cannot be read");
    return (uint64_t)length;
}

/* Finds the moov by the headers at top level. The library says where to read; the last places are where the moov is. */
static uint32_t find_moov(FILE *file, uint64_t length, uint64_t places[CHALDOREF_TOP_LEVEL_PLACES])
{
    uint32_t refusal;
    do {
        uint8_t header[CHALDOREF_HEADER_BYTES];
        uint64_t rest = length - places[1];
        size_t len = rest < CHALDOREF_HEADER_BYTES ? (size_t)rest : CHALDOREF_HEADER_BYTES;
        read_at(file, places[1], header, len);
        refusal = chaldoref_top_level_step(header, len, places, CHALDOREF_TOP_LEVEL_PLACES);
    } while (refusal == CHALDOREF_ANSWERED && places[5] == 0);
    return refusal;
}

/* Reads the moov of a film. The result here and below is the number of the refusal, 0 for none. */
static uint32_t read_film(const char *name, struct film *film)
{
    FILE *file = fopen(name, "rb");
    if (file == NULL)
        fail("the film cannot be read");
    film->length = length_of(file);
    uint64_t places[CHALDOREF_TOP_LEVEL_PLACES] = {film->length};
    uint32_t refusal = find_moov(file, film->length, places);
    if (refusal == CHALDOREF_ANSWERED && places[4] > INT32_MAX)
        refusal = CHALDOREF_FILE_TOO_LONG;
    if (refusal == CHALDOREF_ANSWERED) {
        film->len = (size_t)places[4];
        film->moov = lend(film->len, 1);
        read_at(file, places[3], film->moov, film->len);
    }
    fclose(file);
    return refusal;
}

/* Fills the list. */
static uint32_t list_tracks(struct film film, struct track_list *list)
{
    uint32_t room[CHALDOREF_TRACK_NUMBERS * CHALDOREF_MAX_TRACKS];
    uint64_t count[CHALDOREF_TRACK_LIST_PLACES];
    uint32_t refusal = chaldoref_moov_track_list(film.moov, film.len, film.length, room, sizeof room / sizeof *room,
                                                 count, CHALDOREF_TRACK_LIST_PLACES);
    list->count = (size_t)count[0];
    for (size_t i = 0; i < list->count; i++)
        list->tracks[i] = chaldoref_track_of(room, i);
    return refusal;
}

static void print_tracks(const struct track_list *list)
{
    printf("id subtype scale total samples chunks edits stored\n");
    for (size_t i = 0; i < list->count; i++) {
        const struct chaldoref_track *t = &list->tracks[i];
        printf("%" PRIu32 " %08" PRIx32 " %" PRIu32 " %" PRIu32 " %" PRIu32 " %" PRIu32 " %" PRIu32 " %" PRIu32 "\n",
               t->id, t->subtype, t->scale, t->total, t->samples, t->chunks, t->edits, t->stored);
    }
}

/* The track with that ID; an empty one where there is none, which the library is left to refuse. */
static struct chaldoref_track track_with(const struct track_list *list, uint32_t id)
{
    for (size_t i = 0; i < list->count; i++)
        if (list->tracks[i].id == id)
            return list->tracks[i];
    return (struct chaldoref_track){.id = id};
}

/* The whole of a track as byte ranges. */
static void print_bytes(struct film film, struct chaldoref_track track)
{
    size_t room_len = (size_t)CHALDOREF_PAIR_NUMBERS * track.chunks;
    uint64_t *room = lend(room_len, sizeof *room);
    uint64_t places[CHALDOREF_STRETCH_PLACES];
    uint32_t refusal = chaldoref_moov_stretch(film.moov, film.len, film.length, track.id, 0, track.total,
                                              room, room_len, places, CHALDOREF_STRETCH_PLACES);
    struct chaldoref_stretch_info stretch = chaldoref_stretch_of(places);
    for (size_t i = 0; i < stretch.pairs; i++) {
        struct chaldoref_wide_pair pair = chaldoref_wide_pair_of(room, i);
        printf("%" PRIu64 " bytes of film from byte %" PRIu64 " of the file\n", pair.length, pair.offset);
    }
    if (refusal == CHALDOREF_ANSWERED)
        printf("%" PRIu64 " bytes of film in all\n", stretch.bytes);
    else
        print_refusal(refusal);
    free(room);
}

/* The film time that a slip files, which is read from its bytes alone. */
static uint32_t filed_by(const uint8_t *slip, size_t slip_len, uint64_t *units)
{
    uint64_t *room = lend(slip_len, sizeof *room);
    uint64_t places[CHALDOREF_READ_SLIP_PLACES];
    uint32_t refusal = chaldoref_read_any_slip(slip, slip_len, room, slip_len, places, CHALDOREF_READ_SLIP_PLACES);
    struct chaldoref_any_slip_head head = chaldoref_any_slip_head_of(places);
    *units = head.b - head.a;
    free(room);
    return refusal;
}

/* Writes the slip of a track from a to b, and reads it back. */
static uint32_t filed(struct film film, const struct chaldoref_track *track, uint32_t a, uint32_t b, uint64_t *units)
{
    size_t out_len = CHALDOREF_SLIP_HEAD_BYTES + CHALDOREF_SLIP_WIDE_PAIR_BYTES * (size_t)track->chunks;
    uint8_t *out = lend(out_len, 1);
    uint64_t length[CHALDOREF_WRITE_SLIP_PLACES];
    uint32_t refusal = chaldoref_moov_write_slip(film.moov, film.len, film.length, track->id, a, b, out, out_len,
                                                 length, CHALDOREF_WRITE_SLIP_PLACES);
    if (refusal == CHALDOREF_ANSWERED)
        refusal = filed_by(out, (size_t)length[0], units);
    free(out);
    return refusal;
}

/* Where the second sample of a track starts; 0 where it has none, since the places are zeros then. */
static uint32_t second_start(struct film film, const struct chaldoref_track *track)
{
    int64_t places[CHALDOREF_SAMPLE_PLACES];
    chaldoref_moov_sample(film.moov, film.len, film.length, track->id, 2, places, CHALDOREF_SAMPLE_PLACES);
    return chaldoref_moov_sample_of(places).decode;
}

static void print_verdict(uint64_t units, const struct chaldoref_track *track)
{
    printf(", the movie has %" PRIu32 ": %s\n", track->total, units == track->total ? "adds up" : "does not add up");
}

static uint32_t in_one_slip(struct film film, const struct chaldoref_track *track)
{
    uint64_t units;
    uint32_t refusal = filed(film, track, 0, track->total, &units);
    if (refusal != CHALDOREF_ANSWERED)
        return refusal;
    printf("one slip files %" PRIu64 " units of film time", units);
    print_verdict(units, track);
    return refusal;
}

static uint32_t in_two_slips(struct film film, const struct chaldoref_track *track, uint32_t cut)
{
    uint64_t first, second;
    uint32_t refusal = filed(film, track, 0, cut, &first);
    if (refusal == CHALDOREF_ANSWERED)
        refusal = filed(film, track, cut, track->total, &second);
    if (refusal != CHALDOREF_ANSWERED)
        return refusal;
    printf("one slip files %" PRIu64 " units of film time and one %" PRIu64, first, second);
    print_verdict(first + second, track);
    return refusal;
}

/* Files the whole of a track in two slips, which meet where its second sample starts; in one where no film time lies
   before that or after it. */
static void account(struct film film, const struct chaldoref_track *track)
{
    printf("track %" PRIu32 ": ", track->id);
    if (track->total == 0) {
        printf("no film time\n");
        return;
    }
    uint32_t cut = second_start(film, track);
    int both = 0 < cut && cut < track->total;
    uint32_t refusal = both ? in_two_slips(film, track, cut) : in_one_slip(film, track);
    if (refusal != CHALDOREF_ANSWERED)
        print_refusal(refusal);
}

static void answer(struct film film, const struct track_list *list)
{
    printf("Which tracks does the movie hold?\n");
    print_tracks(list);
    printf("Which bytes show the second hose?\n");
    print_bytes(film, track_with(list, SECOND_HOSE));
    printf("Does the film time filed add up?\n");
    for (size_t i = 0; i < list->count; i++)
        account(film, &list->tracks[i]);
}

int main(int argc, char **argv)
{
    if (argc != 2)
        fail("usage: hoses FILM");
    struct film film = {0};
    struct track_list list;
    uint32_t refusal = read_film(argv[1], &film);
    if (refusal == CHALDOREF_ANSWERED)
        refusal = list_tracks(film, &list);
    if (refusal == CHALDOREF_ANSWERED)
        answer(film, &list);
    else
        print_refusal(refusal);
    free(film.moov);
    return status;
}
