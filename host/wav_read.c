#include "wav.h"

#include <errno.h>
#include <string.h>

enum { PCM = 1, FLOAT = 3, EXTENSIBLE = 0xfffe, LONGEST_FORMAT = 40, FRAME_BYTES = 16 };

/* What a chunk of the file begins with. */
typedef struct chunk {
    char id[5];
    uint32_t size;
} chunk;

static uint32_t little16(const unsigned char *b)
{
    return (uint32_t)b[0] | (uint32_t)b[1] << 8;
}

static uint32_t little32(const unsigned char *b)
{
    return little16(b) | little16(b + 2) << 16;
}

static uint64_t little64(const unsigned char *b)
{
    return (uint64_t)little32(b) | (uint64_t)little32(b + 4) << 32;
}

static uint64_t bytes_left(const wav_reader *wav)
{
    return wav->size - wav->at;
}

/* A file can also shrink, or its disk fail, while it is read. */
static int take(wav_reader *wav, unsigned char *bytes, size_t count, trouble *why)
{
    if (fread(bytes, 1, count, wav->file) != count)
        return trouble_say(why, "%s: cannot be read: %s", wav->path,
                           ferror(wav->file) ? strerror(errno) : "it ends early");
    wav->at += count;
    return 1;
}

/* Goes over bytes that are there: `count` is at most bytes_left. */
static int skip(wav_reader *wav, uint64_t count, trouble *why)
{
    if (fseek(wav->file, (long)count, SEEK_CUR) != 0)
        return trouble_say(why, "%s: cannot be read: %s", wav->path, strerror(errno));
    wav->at += count;
    return 1;
}

/* The length is taken first, so that each size in the file can be held against it. A folder opens, but cannot be read. */
static int measure(wav_reader *wav, trouble *why)
{
    long size = -1;
    if (fgetc(wav->file) == EOF && ferror(wav->file))
        return trouble_say(why, "%s: cannot be read: %s", wav->path, strerror(errno));
    if (fseek(wav->file, 0, SEEK_END) == 0)
        size = ftell(wav->file);
    if (size < 0 || fseek(wav->file, 0, SEEK_SET) != 0)
        return trouble_say(why, "%s: its length cannot be found: %s", wav->path, strerror(errno));
    wav->size = (uint64_t)size;
    return 1;
}

static int read_riff(wav_reader *wav, trouble *why)
{
    unsigned char head[12];
    if (bytes_left(wav) < sizeof head)
        return trouble_say(why, "%s: not a WAV file: it has %llu bytes, a header has 12", wav->path,
                           (unsigned long long)wav->size);
    if (!take(wav, head, sizeof head, why))
        return 0;
    /* The size in the head is not looked at: programs that stop early leave a wrong one, and the chunks have their own. */
    if (memcmp(head, "RIFF", 4) != 0 || memcmp(head + 8, "WAVE", 4) != 0)
        return trouble_say(why, "%s: not a WAV file: it does not begin with RIFF and WAVE", wav->path);
    return 1;
}

/* The next chunk's head. All that it says it has must be there; the name is for messages, odd characters shown as ?. */
static int read_chunk(wav_reader *wav, chunk *next, trouble *why)
{
    unsigned char head[8];
    if (!take(wav, head, sizeof head, why))
        return 0;
    for (int i = 0; i < 4; i++)
        next->id[i] = head[i] >= ' ' && head[i] <= '~' ? (char)head[i] : '?';
    next->id[4] = '\0';
    next->size = little32(head + 4);
    if (next->size > bytes_left(wav))
        return trouble_say(why, "%s: truncated: its chunk '%s' says %lu bytes, %llu are there", wav->path, next->id,
                           (unsigned long)next->size, (unsigned long long)bytes_left(wav));
    return 1;
}

/* A chunk of odd size is followed by one byte that belongs to none; at the end of a file it may be missing. */
static int skip_chunk(wav_reader *wav, uint32_t rest, uint32_t size, trouble *why)
{
    const uint64_t count = (uint64_t)rest + (size & 1u);
    return skip(wav, count < bytes_left(wav) ? count : bytes_left(wav), why);
}

/*
 * The format tag. An extensible format has it as the first two bytes of a GUID whose others are fixed; where the chunk is
 * too short for that there are zeros. 0 is no tag.
 */
static uint32_t format_tag(const unsigned char format[LONGEST_FORMAT])
{
    static const unsigned char rest[14] = {0, 0, 0, 0, 0x10, 0, 0x80, 0, 0, 0xaa, 0, 0x38, 0x9b, 0x71};
    const uint32_t tag = little16(format);
    if (tag != EXTENSIBLE)
        return tag;
    return memcmp(format + 26, rest, sizeof rest) == 0 ? little16(format + 24) : 0;
}

static int check_rate(const wav_reader *wav, trouble *why)
{
    if (wav->rate < LOWEST_RATE || wav->rate > HIGHEST_RATE)
        return trouble_say(why, "%s: its sample rate, %lu, is outside %d to %d", wav->path, (unsigned long)wav->rate,
                           LOWEST_RATE, HIGHEST_RATE);
    return 1;
}

/* A container's unused low bits are 0 by the standard, so that samples of 20 bits in 24 need nothing special. */
static int read_format(wav_reader *wav, const chunk *here, trouble *why)
{
    unsigned char format[LONGEST_FORMAT] = {0};
    const uint32_t known = here->size < LONGEST_FORMAT ? here->size : LONGEST_FORMAT;
    if (here->size < 16)
        return trouble_say(why, "%s: bad header: its format chunk has %lu bytes, at least 16 are needed", wav->path,
                           (unsigned long)here->size);
    if (!take(wav, format, known, why) || !skip_chunk(wav, here->size - known, here->size, why))
        return 0;
    const uint32_t tag = format_tag(format);
    const uint32_t bits = little16(format + 14);
    wav->channels = little16(format + 2);
    wav->rate = little32(format + 4);
    wav->bytes = bits / 8;
    wav->is_float = tag == FLOAT;
    if (wav->channels < 1 || wav->channels > 2)
        return trouble_say(why, "%s: it has %u channels; mono and stereo are read", wav->path, wav->channels);
    if (!(tag == PCM && (bits == 16 || bits == 24 || bits == 32)) && !(tag == FLOAT && (bits == 32 || bits == 64)))
        return trouble_say(why, "%s: its format, tag %lu with %lu bits, is not read; PCM of 16, 24 or 32 bits and floats of "
                                "32 or 64 are", wav->path, (unsigned long)little16(format), (unsigned long)bits);
    if (little16(format + 12) != wav->channels * wav->bytes)
        return trouble_say(why, "%s: bad header: frames of %lu bytes, but %u channels of %u bytes each", wav->path,
                           (unsigned long)little16(format + 12), wav->channels, wav->bytes);
    return check_rate(wav, why);
}

static int enter_data(wav_reader *wav, const chunk *here, trouble *why)
{
    const uint32_t frame = wav->channels * wav->bytes;
    if (frame == 0)
        return trouble_say(why, "%s: bad header: its samples come before their format", wav->path);
    if (here->size % frame != 0)
        return trouble_say(why, "%s: truncated: its %lu bytes of samples end within a frame of %lu", wav->path,
                           (unsigned long)here->size, (unsigned long)frame);
    wav->frames = here->size / frame;
    return 1;
}

/* Up to the first chunk of samples; what stands after it is not looked at. */
static int find_data(wav_reader *wav, trouble *why)
{
    chunk here;
    while (bytes_left(wav) >= 8) {
        if (!read_chunk(wav, &here, why))
            return 0;
        if (strcmp(here.id, "data") == 0)
            return enter_data(wav, &here, why);
        if (strcmp(here.id, "fmt ") == 0 && wav->channels != 0)
            return trouble_say(why, "%s: bad header: it has two formats", wav->path);
        const int gone = strcmp(here.id, "fmt ") == 0 ? read_format(wav, &here, why)
                                                       : skip_chunk(wav, here.size, here.size, why);
        if (!gone)
            return 0;
    }
    return trouble_say(why, "%s: truncated: it has no %s chunk", wav->path, wav->channels != 0 ? "data" : "format");
}

int wav_open(wav_reader *wav, const char *path, trouble *why)
{
    const wav_reader closed = {0};
    *wav = closed;
    wav->path = path;
    wav->file = fopen(path, "rb");
    if (wav->file == NULL)
        return trouble_say(why, "%s: cannot be opened: %s", path, strerror(errno));
    if (measure(wav, why) && read_riff(wav, why) && find_data(wav, why))
        return 1;
    wav_close(wav);
    return 0;
}

/* PCM is put into the top bytes of 32 bits, which carry its sign; each sample is exact in a double. */
static double pcm_sample(const unsigned char *b, unsigned bytes)
{
    uint32_t word = 0;
    for (unsigned i = 0; i < bytes; i++)
        word |= (uint32_t)b[i] << (8 * (4 - bytes + i));
    const double top = (word & 0x80000000u) != 0 ? 4294967296.0 : 0.0;
    return ((double)word - top) / 2147483648.0;
}

static double float_sample(const unsigned char *b, unsigned bytes)
{
    const uint32_t word = little32(b);
    float single;
    double whole;
    if (bytes == 4) {
        memcpy(&single, &word, sizeof single);
        return (double)single;
    }
    const uint64_t words = little64(b);
    memcpy(&whole, &words, sizeof whole);
    return whole;
}

int wav_read(wav_reader *wav, block *sound, trouble *why)
{
    unsigned char frame[FRAME_BYTES];
    sound->channels = wav->channels;
    for (size_t i = 0; i < sound->frames; i++) {
        if (!take(wav, frame, wav->channels * wav->bytes, why))
            return 0;
        for (unsigned c = 0; c < wav->channels; c++) {
            const unsigned char *here = frame + c * wav->bytes;
            sound->side[c][i] = wav->is_float ? float_sample(here, wav->bytes) : pcm_sample(here, wav->bytes);
        }
    }
    return 1;
}

void wav_close(wav_reader *wav)
{
    if (wav->file != NULL)
        fclose(wav->file);
    wav->file = NULL;
}
