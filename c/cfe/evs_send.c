/*
 * evs_send.c: how events go out, as packets and as lines: those of applications, of the layer's
 * services, and the bus's own.
 */
#include "cfe_msgids.h"
#include "cfe_sb_events.h"
#include "layer.h"

#include <errno.h>
#include <poll.h>
#include <stdio.h>
#include <string.h>
#include <unistd.h>

/* The core logs so many bytes of a text, in so many lines. */
enum { LOGGED_TEXT = 122, LOG_LINES = 20 };

/* The bytes of a line that is printed, at most: a pipe takes as many at once. */
enum { MOST_LINE = 512 };
_Static_assert(MOST_LINE <= 4096, "PIPE_BUF");

/* Whose the bus's own events are. */
static const char bus_name[] = "CFE_SB";

void fsw_send_event_packet(const struct fsw_event *event)
{
    CFE_EVS_LongEventTlm_t packet;
    CFE_EVS_PacketID_t *head = &packet.Payload.PacketID;
    CFE_MSG_Init(CFE_MSG_PTR(packet.TelemetryHeader), CFE_EVS_LONG_EVENT_MSG_MID, sizeof packet);
    snprintf(head->AppName, sizeof head->AppName, "%s", event->from);
    head->EventID = event->id;
    head->EventType = event->type;
    head->SpacecraftID = fsw_layer.config.spacecraft;
    head->ProcessorID = fsw_layer.config.processor;
    size_t most = sizeof packet.Payload.Message - 1, length = strlen(event->text);
    memcpy(packet.Payload.Message, event->text, length < most ? length : most);
    /* cFE's mark of a text that was cut. */
    if (length > most)
        packet.Payload.Message[most - 1] = '$';
    fsw_send_at(fsw_self->app, &packet.TelemetryHeader, sizeof packet, event->time);
}

/* Writes a line, unless its reader is behind: then it would wait, maybe for ever. */
static bool write_line(int file, const char *line)
{
    struct pollfd output = {.fd = file, .events = POLLOUT};
    size_t length = strlen(line);
    if (poll(&output, 1, 0) != 1 || !(output.revents & POLLOUT))
        return false;
    return write(file, line, length) == (ssize_t)length;
}

void fsw_print_line(int file, const char *line)
{
    /* Lines that weren't printed: of the standard output, and of the error output. */
    static unsigned missing[2];
    char notice[MOST_LINE];
    unsigned *count = &missing[file == STDERR_FILENO];
    fsw_prepare();
    fsw_must(pthread_mutex_lock(&fsw_layer.printing));
    snprintf(notice, sizeof notice, "fsw: %u lines weren't printed\n", *count);
    if (*count > 0 && write_line(file, notice))
        *count = 0;
    if (*count > 0 || !write_line(file, line))
        (*count)++;
    fsw_must(pthread_mutex_unlock(&fsw_layer.printing));
}

void fsw_print_event(const struct fsw_config *config, const struct fsw_event *event)
{
    char shown[MOST_TEXT + 1], line[MOST_LINE];
    fsw_copy_printable(shown, sizeof shown, event->text);
    snprintf(line, sizeof line, "EVS Port1 %u/%u/%s %u: %s\n", (unsigned)config->spacecraft,
             (unsigned)config->processor, event->from, event->id, shown);
    fsw_print_line(STDOUT_FILENO, line);
}

/* ---- The bus's own events ---- */

/* Each by its number in the core: cFE's id, and the filter that cFE's usual configuration has. */
static const CFE_EVS_BinFilter_t bus_events[BUS_EVENTS + 1] = {
    {0, 0},
    {CFE_SB_DUP_SUBSCRIP_EID, CFE_EVS_FIRST_4_STOP},
    {CFE_SB_UNSUB_NO_SUBS_EID, CFE_EVS_NO_FILTER},
    {CFE_SB_SEND_NO_SUBS_EID, CFE_EVS_FIRST_4_STOP},
    {CFE_SB_MSGID_LIM_ERR_EID, CFE_EVS_FIRST_16_STOP},
    {CFE_SB_Q_FULL_ERR_EID, CFE_EVS_FIRST_16_STOP},
    {FSW_SB_OLDEST_INF_EID, CFE_EVS_FIRST_16_STOP}};

/* Of a refused call: the event of each status but CFE_SB_BAD_ARGUMENT. */
static const struct {
    uint32_t status;
    uint16 id;
} refusals[] = {{FSW_SB_MAX_PIPES_MET, CFE_SB_MAX_PIPES_MET_EID},
                {FSW_SB_PIPE_CR_ERR, CFE_SB_CR_PIPE_ERR_EID},
                {FSW_SB_MAX_MSGS_MET, CFE_SB_MAX_MSGS_MET_EID},
                {FSW_SB_MAX_DESTS_MET, CFE_SB_MAX_DESTS_MET_EID},
                {FSW_SB_MSG_TOO_BIG, CFE_SB_MSG_TOO_BIG_EID},
                {FSW_SB_BUF_ALOC_ERR, CFE_SB_GET_BUF_ERR_EID}};

/* Events to be told: the log forgets its own, and hasn't that a call was refused. */
struct told {
    uint32_t count;
    struct {
        uint16 id, type;
        char text[LOGGED_TEXT + 1];
    } event[LOG_LINES + 1];
};

/* Adds an event of the bus that its filter lets through. */
static void take_event(struct told *told, const struct fsw_log_line *line)
{
    uint16_t *count = &fsw_layer.bus_events[line->id];
    bool passes = (*count & bus_events[line->id].Mask) == 0 || fsw_layer.config.all_bus_events;
    if (*count < UINT16_MAX)
        (*count)++;
    if (!passes)
        return;
    fsw_layer.events_sent++;
    told->event[told->count].id = bus_events[line->id].EventID;
    told->event[told->count].type = (uint16)line->kind;
    memcpy(told->event[told->count].text, line->text, line->text_len);
    told->event[told->count++].text[line->text_len] = '\0';
}

/*
 * What the bus logged since it was asked last: of more than 20 lines, the last 20. Past 4294967295
 * events the core counts no more, and none is told.
 */
static void take_events(struct told *told)
{
    struct fsw_event_counts counts;
    struct fsw_log_line line;
    told->count = 0;
    fsw_event_counts(&fsw_layer.core, &counts);
    uint32_t added = counts.sent - fsw_layer.events_seen;
    for (uint32_t i = added < counts.logged ? counts.logged - added : 0; i < counts.logged; i++)
        if (fsw_log_line(&fsw_layer.core, i, &line) == FSW_SUCCESS && line.app == 0)
            take_event(told, &line);
    fsw_layer.events_seen = counts.sent;
}

/* Adds that a call was refused. */
static void add_refusal(struct told *told, const struct app *app, struct fsw_asked asked,
                        uint32_t status)
{
    uint16 id = asked.bad_argument;
    char of_id[16] = "";
    for (size_t i = 0; i < sizeof refusals / sizeof refusals[0]; i++)
        if (refusals[i].status == status)
            id = refusals[i].id;
    if (asked.id)
        snprintf(of_id, sizeof of_id, " id 0x%04x", (unsigned)asked.id);
    told->event[told->count].id = id;
    told->event[told->count].type = CFE_EVS_EventType_ERROR;
    snprintf(told->event[told->count++].text, LOGGED_TEXT + 1, "%s%s refused 0x%08x app %s",
             asked.call, of_id, (unsigned)fsw_status(status, CFE_SB_BAD_ARGUMENT), app->name);
}

static struct fsw_event event_of(const struct told *told, uint32_t place)
{
    return (struct fsw_event){bus_name, told->event[place].id, told->event[place].type,
                              CFE_TIME_GetTime(), told->event[place].text};
}

/* Sends packets of the events. What the bus logs of these packets is not told: it would not end. */
static void send_events(const struct told *told)
{
    struct fsw_event_counts counts;
    for (uint32_t i = 0; i < told->count; i++) {
        struct fsw_event event = event_of(told, i);
        fsw_send_event_packet(&event);
    }
    if (told->count > 0 && fsw_event_counts(&fsw_layer.core, &counts) == FSW_SUCCESS)
        fsw_layer.events_seen = counts.sent;
}

static void print_events(const struct fsw_config *config, const struct told *told)
{
    for (uint32_t i = 0; i < told->count; i++) {
        struct fsw_event event = event_of(told, i);
        fsw_print_event(config, &event);
    }
}

CFE_Status_t fsw_leave_telling(struct fsw_asked asked, uint32_t status)
{
    const struct app *app = fsw_self->app;
    struct told told;
    struct fsw_config config = fsw_layer.config;
    take_events(&told);
    if (status != FSW_SUCCESS)
        add_refusal(&told, app, asked, status);
    if (config.sends_events)
        send_events(&told);
    fsw_leave();
    if (config.prints_events)
        print_events(&config, &told);
    return fsw_status(status, CFE_SB_BAD_ARGUMENT);
}

/* ---- Events of the layer's services ---- */

void fsw_send_service_event(const char *service, uint16 id, uint16 type, const char *text)
{
    const struct fsw_event event = {service, id, type, CFE_TIME_GetTime(), text};
    fsw_resume();
    struct fsw_config config = fsw_layer.config;
    fsw_layer.events_sent++;
    if (config.sends_events)
        fsw_send_event_packet(&event);
    fsw_leave_bus((struct fsw_asked){"", 0, 0}, FSW_SUCCESS);
    if (config.prints_events)
        fsw_print_event(&config, &event);
}
