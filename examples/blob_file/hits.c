/* Reads the hits that save.llama saved, by one fread into an array of structs, and prints them as `print` does. The numbers of a file are
   little-endian, and so must the machine be. */
#include <inttypes.h>
#include <stdbool.h>
#include <stdint.h>
#include <stdio.h>
#include <stdlib.h>
#include <string.h>

enum { FRONT = 12, MOST_HEADER = 8194 };

static const char MAGIC[] = "LLAMAB1\n";
static const char RECORD[] = "record R { time : u64 , channel : u16 , adc : i16 , saturated : bool }\n";
static const char VIEW[] = "view V : R [ %zu ] as aos ( aligned , row )\n%n";

struct hit {
    uint64_t time;
    uint16_t channel;
    int16_t adc;
    bool saturated;
};

_Static_assert(sizeof(struct hit) == 16, "aos(aligned, row) has 16 bytes a record");

static void fail(const char *why)
{
    fprintf(stderr, "hits: %s\n", why);
    exit(1);
}

/* How many records follow: reads the header, which has to be of this record under this layout. */
static size_t records_behind_header(FILE *file)
{
    unsigned char front[FRONT];
    char header[MOST_HEADER + 1];
    if (fread(front, 1, FRONT, file) != FRONT || memcmp(front, MAGIC, strlen(MAGIC)))
        fail("this is no blob file");
    uint32_t size = front[8] | front[9] << 8 | front[10] << 16 | (uint32_t)front[11] << 24;
    if (size > MOST_HEADER || fread(header, 1, size, file) != size)
        fail("the header is cut");
    header[size] = '\0';
    size_t count = 0;
    int end = 0;
    if (strncmp(header, RECORD, strlen(RECORD)))
        fail("the record is another");
    if (sscanf(header + strlen(RECORD), VIEW, &count, &end) != 1 || strlen(RECORD) + end != size)
        fail("the layout is another");
    return count;
}

int main(void)
{
    FILE *file = fopen("hits.blob", "rb");
    if (!file)
        fail("hits.blob can't be read");
    size_t count = records_behind_header(file);
    struct hit *hits = calloc(count + 1, sizeof *hits);
    if (!hits || fread(hits, sizeof *hits, count, file) != count)
        fail("records are missing");
    fclose(file);
    printf("time,channel,adc,saturated\n");
    for (const struct hit *hit = hits; hit < hits + count; hit++)
        printf("%" PRIu64 ",%u,%d,%d\n", hit->time, hit->channel, hit->adc, hit->saturated);
    free(hits);
    return 0;
}
