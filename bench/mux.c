// Reads all packets of a movie by libavformat's demuxer, has its muxer write them into another, and prints how many seconds of
// processor time the muxer took.

#include <libavformat/avformat.h>
#include <stdio.h>
#include <stdlib.h>
#include <sys/resource.h>

static double processor(void)
{
    struct rusage used;
    getrusage(RUSAGE_SELF, &used);
    return used.ru_utime.tv_sec + used.ru_stime.tv_sec + (used.ru_utime.tv_usec + used.ru_stime.tv_usec) / 1e6;
}

static void must(int answer)
{
    if (answer < 0) {
        fprintf(stderr, "mux: %s\n", av_err2str(answer));
        exit(1);
    }
}

// The next packet of a movie in memory of its own, or NULL at the end.
static AVPacket *next(AVFormatContext *in)
{
    AVPacket *packet = av_packet_alloc();
    if (av_read_frame(in, packet) < 0) {
        av_packet_free(&packet);
        return NULL;
    }
    must(av_packet_make_refcounted(packet));
    return packet;
}

static void mux(const AVFormatContext *in, const char *path, AVPacket **packets, size_t count)
{
    AVFormatContext *out = NULL;
    must(avformat_alloc_output_context2(&out, NULL, "mp4", path));
    for (unsigned i = 0; i < in->nb_streams; i++) {
        AVStream *stream = avformat_new_stream(out, NULL);
        must(avcodec_parameters_copy(stream->codecpar, in->streams[i]->codecpar));
        stream->codecpar->codec_tag = 0;
        stream->time_base = in->streams[i]->time_base;
    }
    must(avio_open(&out->pb, path, AVIO_FLAG_WRITE));
    must(avformat_write_header(out, NULL));
    for (size_t i = 0; i < count; i++) {
        int stream = packets[i]->stream_index;
        av_packet_rescale_ts(packets[i], in->streams[stream]->time_base, out->streams[stream]->time_base);
        must(av_interleaved_write_frame(out, packets[i]));
    }
    must(av_write_trailer(out));
    must(avio_closep(&out->pb));
    avformat_free_context(out);
}

int main(int argc, char **argv)
{
    if (argc != 3)
        return 2;
    av_log_set_level(AV_LOG_FATAL);
    AVFormatContext *in = NULL;
    must(avformat_open_input(&in, argv[1], NULL, NULL));
    must(avformat_find_stream_info(in, NULL));
    AVPacket **packets = NULL;
    size_t count = 0;
    for (AVPacket *packet; (packet = next(in)) != NULL; count++) {
        if (count % 4096 == 0 && (packets = realloc(packets, (count + 4096) * sizeof *packets)) == NULL)
            return 1;
        packets[count] = packet;
    }
    double begun = processor();
    mux(in, argv[2], packets, count);
    printf("%f\n", processor() - begun);
    return 0;
}
