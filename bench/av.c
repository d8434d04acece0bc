#include "av.h"
#include "clock.h"

#include <libavformat/avformat.h>
#include <string.h>

enum { IO_BUFFER = 32768 }; /* as libavformat's own for files */

struct memory {
    const uint8_t *bytes;
    int64_t len, at;
};

static int memory_read(void *opaque, uint8_t *to, int n)
{
    struct memory *m = opaque;
    int64_t rest = m->len - m->at;
    if (rest <= 0)
        return AVERROR_EOF;
    int count = rest < n ? (int)rest : n;
    memcpy(to, m->bytes + m->at, (size_t)count);
    m->at += count;
    return count;
}

static int64_t memory_seek(void *opaque, int64_t to, int whence)
{
    struct memory *m = opaque;
    if (whence & AVSEEK_SIZE)
        return m->len;
    m->at = to + ((whence & 3) == SEEK_CUR ? m->at : (whence & 3) == SEEK_END ? m->len : 0);
    return m->at;
}

static long index_entries(const AVFormatContext *ctx)
{
    long n = 0;
    for (unsigned i = 0; i < ctx->nb_streams; i++)
        n += avformat_index_get_entries_count(ctx->streams[i]);
    return n;
}

bool av_read(const uint8_t *bytes, size_t len, bool probe, long *entries, double *ms)
{
    av_log_set_level(AV_LOG_QUIET);
    struct memory m = { bytes, (int64_t)len, 0 };
    AVIOContext *io = avio_alloc_context(av_malloc(IO_BUFFER), IO_BUFFER, 0, &m, memory_read, NULL, memory_seek);
    AVFormatContext *ctx = avformat_alloc_context();
    ctx->pb = io;
    double begin = now_ms();
    bool opened = avformat_open_input(&ctx, NULL, av_find_input_format("mov"), NULL) == 0;
    double middle = now_ms();
    *ms = middle - begin;
    *entries = opened ? index_entries(ctx) : 0;
    if (opened && probe) {
        opened = avformat_find_stream_info(ctx, NULL) >= 0;
        *ms = now_ms() - middle;
    }
    avformat_close_input(&ctx);
    av_freep(&io->buffer);
    avio_context_free(&io);
    return opened;
}
