/* POSIX is used to ask whether a path is an ordinary file (a rename onto /dev/null would replace it), and to make a file only
 * where none is. */
#define _POSIX_C_SOURCE 200112L

#include "wav.h"

#include <errno.h>
#include <fcntl.h>
#include <float.h>
#include <math.h>
#include <stdlib.h>
#include <string.h>
#include <sys/stat.h>
#include <unistd.h>

enum { HEAD_BYTES = 58, FORMAT_FLOAT = 3 };

static const char part_ending[] = ".room-part";

static unsigned char *put_name(unsigned char *at, const char *name)
{
    memcpy(at, name, 4);
    return at + 4;
}

static unsigned char *put(unsigned char *at, uint64_t value, unsigned bytes)
{
    for (unsigned i = 0; i < bytes; i++)
        at[i] = (unsigned char)(value >> (8 * i) & 0xffu);
    return at + bytes;
}

/* RIFF, a format of 18 bytes and a count of frames, as floats ask for both, then the samples. No chunk has an odd size. */
static void make_head(unsigned char head[HEAD_BYTES], const wav_writer *wav, uint32_t rate, uint64_t frames)
{
    const uint32_t frame = wav->channels * wav->bytes;
    unsigned char *at = put_name(head, "RIFF");
    at = put(at, HEAD_BYTES - 8 + frames * frame, 4);
    at = put_name(at, "WAVE");
    at = put_name(at, "fmt ");
    at = put(at, 18, 4);
    at = put(at, FORMAT_FLOAT, 2);
    at = put(at, wav->channels, 2);
    at = put(at, rate, 4);
    at = put(at, (uint64_t)rate * frame, 4);
    at = put(at, frame, 2);
    at = put(at, 8 * wav->bytes, 2);
    at = put(at, 0, 2);
    at = put_name(at, "fact");
    at = put(at, 4, 4);
    at = put(at, frames, 4);
    at = put_name(at, "data");
    put(at, frames * frame, 4);
}

static int check_place(const wav_writer *wav, uint64_t frames, trouble *why)
{
    struct stat there;
    const uint64_t most = (UINT32_MAX - HEAD_BYTES) / ((uint64_t)wav->channels * wav->bytes);
    if (frames > most)
        return trouble_say(why, "%s: cannot be written: %llu frames, and a WAV file of this kind holds at most %llu",
                           wav->path, (unsigned long long)frames, (unsigned long long)most);
    if (stat(wav->path, &there) == 0 && !S_ISREG(there.st_mode))
        return trouble_say(why, "%s: cannot be written: it is there and is not an ordinary file", wav->path);
    return 1;
}

static int cannot_write(const wav_writer *wav, trouble *why)
{
    return trouble_say(why, "%s: cannot be written: %s", wav->path, strerror(errno));
}

/* A file that was not there: one of this name may be anybody's, even the one that is being read. */
static FILE *new_file(const char *path)
{
    const int made = open(path, O_WRONLY | O_CREAT | O_EXCL, 0666);
    FILE *file = made < 0 ? NULL : fdopen(made, "wb");
    if (made >= 0 && file == NULL) {
        close(made);
        remove(path);
    }
    return file;
}

int wav_create(wav_writer *wav, const char *path, uint32_t rate, unsigned channels, unsigned bytes, uint64_t frames,
               trouble *why)
{
    const wav_writer fresh = {NULL, path, NULL, 0, channels, bytes, 0};
    unsigned char head[HEAD_BYTES];
    *wav = fresh;
    if (!check_place(wav, frames, why))
        return 0;
    wav->part = malloc(strlen(path) + sizeof part_ending);
    if (wav->part == NULL)
        return trouble_say(why, "%s: not enough memory", path);
    strcpy(wav->part, path);
    strcat(wav->part, part_ending);
    wav->file = new_file(wav->part);
    wav->made = wav->file != NULL;
    make_head(head, wav, rate, frames);
    if (wav->file != NULL && fwrite(head, 1, sizeof head, wav->file) == sizeof head)
        return 1;
    if (wav->file == NULL && errno == EEXIST)
        trouble_say(why, "%s: cannot be written: %s is there already", path, wav->part);
    else
        cannot_write(wav, why);
    wav_drop(wav);
    return 0;
}

int wav_finite(double x, unsigned bytes)
{
    return isfinite(x) && (bytes == 8 || fabs(x) <= FLT_MAX);
}

/* C leaves open what becomes of a double that is beyond a float; here it is infinity. */
static uint64_t sample_bits(double x, unsigned bytes)
{
    uint64_t words;
    uint32_t word;
    float single;
    if (bytes == 8) {
        memcpy(&words, &x, sizeof words);
        return words;
    }
    single = fabs(x) > FLT_MAX ? (x > 0.0 ? INFINITY : -INFINITY) : (float)x;
    memcpy(&word, &single, sizeof word);
    return word;
}

int wav_write(wav_writer *wav, const block *sound, trouble *why)
{
    unsigned char frame[16];
    for (size_t i = 0; i < sound->frames; i++) {
        unsigned char *at = frame;
        for (unsigned c = 0; c < wav->channels; c++) {
            const double x = sound->side[c][i];
            wav->not_finite += !wav_finite(x, wav->bytes);
            at = put(at, sample_bits(x, wav->bytes), wav->bytes);
        }
        if (fwrite(frame, 1, (size_t)(at - frame), wav->file) != (size_t)(at - frame))
            return cannot_write(wav, why);
    }
    return 1;
}

/* A full disk may only show at the close, so the file gets its name after that. */
int wav_finish(wav_writer *wav, trouble *why)
{
    const int closed = fclose(wav->file) == 0;
    wav->file = NULL;
    if (!closed || rename(wav->part, wav->path) != 0) {
        cannot_write(wav, why);
        wav_drop(wav);
        return 0;
    }
    wav->made = 0;
    wav_drop(wav);
    return 1;
}

void wav_drop(wav_writer *wav)
{
    if (wav->file != NULL)
        fclose(wav->file);
    if (wav->made)
        remove(wav->part);
    free(wav->part);
    wav->file = NULL;
    wav->part = NULL;
    wav->made = 0;
}
