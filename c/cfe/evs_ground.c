/*
 * evs_ground.c: Event Services' commands for types, filters and the port, and its housekeeping
 * packet.
 */
#include "cfe_evs_events.h"
#include "cfe_evs_msg.h"
#include "cfe_msgids.h"
#include "layer.h"

#include <string.h>

static const char service_name[] = "CFE_EVS";

enum { ALL_TYPES = 0x0f, LONG_FORMAT = 2, LOG_LINES = 20 };

/* A command's arguments, as the one that has them all. */
struct arguments {
    uint32_t code;
    char name[CFE_MISSION_MAX_API_LEN];
    uint16 id, mask;
    uint8 bits;
};

/* What became of a command: its event, beside those of a name or a filter that isn't there. */
struct outcome {
    bool is_done;
    uint16 id;
    uint16 type;
    const char *words; /* what the event says before the arguments */
};

static const struct outcome no_application = {false, CFE_EVS_ERR_NOAPPIDFOUND_EID,
                                              CFE_EVS_EventType_ERROR,
                                              "No application of the name"},
                            not_registered = {false, CFE_EVS_ERR_APPNOREGS_EID,
                                              CFE_EVS_EventType_ERROR, "Not registered with EVS"},
                            no_filter = {false, CFE_EVS_ERR_EVTIDNOREGS_EID,
                                         CFE_EVS_EventType_ERROR, "Event ID not filtered"},
                            bad_mask = {false, CFE_EVS_ERR_INVALID_BITMASK_EID,
                                        CFE_EVS_EventType_ERROR, "Bit mask out of range"};

static struct outcome done(uint16 id, const char *words)
{
    return (struct outcome){true, id, CFE_EVS_EventType_DEBUG, words};
}

/* ---- All applications ---- */

static struct outcome do_nothing(const struct arguments *arguments)
{
    (void)arguments;
    return (struct outcome){true, CFE_EVS_NOOP_EID, CFE_EVS_EventType_INFORMATION,
                            "No-op Cmd Rcvd"};
}

static struct outcome reset_counters(const struct arguments *arguments)
{
    (void)arguments;
    fsw_layer.event_commands = fsw_layer.event_command_errors = fsw_layer.unregistered_events = 0;
    fsw_layer.events_sent = 0;
    fsw_must(fsw_event_counts(&fsw_layer.core, &fsw_layer.event_counts) != FSW_SUCCESS);
    return done(CFE_EVS_RSTCNT_EID, "Reset Counters Command Received");
}

static void set_types(struct app *app, uint8 bits, bool is_on)
{
    app->event_types = (uint8_t)(is_on ? app->event_types | bits : app->event_types & ~bits);
}

static struct outcome set_all_types(const struct arguments *arguments)
{
    bool is_on = arguments->code == CFE_EVS_ENABLE_EVENT_TYPE_CC;
    if (arguments->bits == 0 || arguments->bits > ALL_TYPES)
        return bad_mask;
    for (uint32_t i = 0; i < fsw_layer.apps; i++)
        set_types(&fsw_layer.app[i], arguments->bits, is_on);
    return is_on ? done(CFE_EVS_ENAEVTTYPE_EID, "Enable Event Type Command Received")
                 : done(CFE_EVS_DISEVTTYPE_EID, "Disable Event Type Command Received");
}

static struct outcome set_port(const struct arguments *arguments)
{
    bool is_on = arguments->code == CFE_EVS_ENABLE_PORTS_CC;
    if (arguments->bits != CFE_EVS_PORT1_BIT)
        return bad_mask;
    fsw_layer.config.prints_events = is_on;
    return is_on ? done(CFE_EVS_ENAPORT_EID, "Enable Ports Command Received")
                 : done(CFE_EVS_DISPORT_EID, "Disable Ports Command Received");
}

/* ---- One application ---- */

static struct outcome set_app_types(const struct arguments *arguments, struct app *app)
{
    bool is_on = arguments->code == CFE_EVS_ENABLE_APP_EVENT_TYPE_CC;
    if (arguments->bits == 0 || arguments->bits > ALL_TYPES)
        return bad_mask;
    set_types(app, arguments->bits, is_on);
    return is_on ? done(CFE_EVS_ENAAPPEVTTYPE_EID, "Enable App Event Type Command Received")
                 : done(CFE_EVS_DISAPPENTTYPE_EID, "Disable App Event Type Command Received");
}

static struct outcome set_app_events(const struct arguments *arguments, struct app *app)
{
    app->sends_events = arguments->code == CFE_EVS_ENABLE_APP_EVENTS_CC;
    return app->sends_events ? done(CFE_EVS_ENAAPPEVT_EID, "Enable App Events Command Received")
                             : done(CFE_EVS_DISAPPEVT_EID, "Disable App Events Command Received");
}

static struct outcome reset_app_counter(const struct arguments *arguments, struct app *app)
{
    (void)arguments;
    app->events_sent = 0;
    return done(CFE_EVS_RSTEVTCNT_EID, "Reset Event Counter Command Received");
}

static struct outcome reset_all_filters(const struct arguments *arguments, struct app *app)
{
    (void)arguments;
    fsw_must(fsw_unlock_filters(app) != FSW_SUCCESS);
    return done(CFE_EVS_RSTALLFILTER_EID, "Reset All Filters Command Received");
}

static struct outcome reset_filter(const struct arguments *arguments, struct app *app)
{
    if (fsw_unlock_filter(app, arguments->id) != FSW_SUCCESS)
        return no_filter;
    return done(CFE_EVS_RSTFILTER_EID, "Reset Filter Command Received");
}

/* The application's filters without that of an id; answers how many there are. */
static uint32_t other_filters(const struct app *app, uint16 id, CFE_EVS_BinFilter_t *filters)
{
    uint32_t count = 0;
    for (uint32_t i = 0; i < app->filters; i++)
        if (app->filter[i].id != id)
            filters[count++] = (CFE_EVS_BinFilter_t){app->filter[i].id, app->filter[i].mask};
    return count;
}

/* The core takes all filters of an application anew: so their counts begin again. */
static struct outcome change_filter(const struct arguments *arguments, struct app *app)
{
    CFE_EVS_BinFilter_t filters[MOST_FILTERS + 1];
    uint32_t count = other_filters(app, arguments->id, filters);
    bool is_there = count < app->filters, is_new = arguments->code == CFE_EVS_ADD_EVENT_FILTER_CC;
    if (!is_new && !is_there)
        return no_filter;
    if (is_new && is_there)
        return (struct outcome){false, CFE_EVS_EVT_FILTERED_EID, CFE_EVS_EventType_ERROR,
                                "Event ID already filtered"};
    if (is_new && count == MOST_FILTERS)
        return (struct outcome){false, CFE_EVS_ERR_MAXREGSFILTER_EID, CFE_EVS_EventType_ERROR,
                                "As many filters as there may be"};
    if (arguments->code != CFE_EVS_DELETE_EVENT_FILTER_CC)
        filters[count++] = (CFE_EVS_BinFilter_t){arguments->id, arguments->mask};
    fsw_must(fsw_set_filters(app, filters, count) != FSW_SUCCESS);
    if (is_new)
        return done(CFE_EVS_ADDFILTER_EID, "Add Filter Command Received");
    return arguments->code == CFE_EVS_SET_FILTER_CC
               ? done(CFE_EVS_SETFILTERMSK_EID, "Set Filter Mask Command Received")
               : done(CFE_EVS_DELFILTER_EID, "Delete Filter Command Received");
}

/* ---- Commands ---- */

/* Each by its function code: its size, and what it does to all applications, or to one. */
static const struct {
    size_t size;
    struct outcome (*all)(const struct arguments *arguments);
    struct outcome (*one)(const struct arguments *arguments, struct app *app);
} commands[] = {
    [CFE_EVS_NOOP_CC] = {sizeof(CFE_MSG_CommandHeader_t), do_nothing, NULL},
    [CFE_EVS_RESET_COUNTERS_CC] = {sizeof(CFE_MSG_CommandHeader_t), reset_counters, NULL},
    [CFE_EVS_ENABLE_EVENT_TYPE_CC] = {sizeof(CFE_EVS_BitMaskCmd_t), set_all_types, NULL},
    [CFE_EVS_DISABLE_EVENT_TYPE_CC] = {sizeof(CFE_EVS_BitMaskCmd_t), set_all_types, NULL},
    [CFE_EVS_ENABLE_PORTS_CC] = {sizeof(CFE_EVS_BitMaskCmd_t), set_port, NULL},
    [CFE_EVS_DISABLE_PORTS_CC] = {sizeof(CFE_EVS_BitMaskCmd_t), set_port, NULL},
    [CFE_EVS_ENABLE_APP_EVENT_TYPE_CC] = {sizeof(CFE_EVS_AppNameBitMaskCmd_t), NULL, set_app_types},
    [CFE_EVS_DISABLE_APP_EVENT_TYPE_CC] = {sizeof(CFE_EVS_AppNameBitMaskCmd_t), NULL,
                                           set_app_types},
    [CFE_EVS_ENABLE_APP_EVENTS_CC] = {sizeof(CFE_EVS_AppNameCmd_t), NULL, set_app_events},
    [CFE_EVS_DISABLE_APP_EVENTS_CC] = {sizeof(CFE_EVS_AppNameCmd_t), NULL, set_app_events},
    [CFE_EVS_RESET_APP_COUNTER_CC] = {sizeof(CFE_EVS_AppNameCmd_t), NULL, reset_app_counter},
    [CFE_EVS_RESET_ALL_FILTERS_CC] = {sizeof(CFE_EVS_AppNameCmd_t), NULL, reset_all_filters},
    [CFE_EVS_RESET_FILTER_CC] = {sizeof(CFE_EVS_AppNameEventIDCmd_t), NULL, reset_filter},
    [CFE_EVS_DELETE_EVENT_FILTER_CC] = {sizeof(CFE_EVS_AppNameEventIDCmd_t), NULL, change_filter},
    [CFE_EVS_SET_FILTER_CC] = {sizeof(CFE_EVS_AppNameEventIDMaskCmd_t), NULL, change_filter},
    [CFE_EVS_ADD_EVENT_FILTER_CC] = {sizeof(CFE_EVS_AppNameEventIDMaskCmd_t), NULL, change_filter},
};

enum { COMMANDS = sizeof commands / sizeof commands[0] };

/* Reads the arguments of a command, each where the command of its size has it. */
static struct arguments arguments_of(const struct fsw_command *command, uint32_t code)
{
    struct arguments arguments = {.code = code, .bits = 0};
    CFE_EVS_AppNameEventIDMaskCmd_t longest;
    CFE_EVS_AppNameBitMaskCmd_t named;
    CFE_EVS_BitMaskCmd_t plain;
    memcpy(&longest, command->bytes, sizeof longest);
    memcpy(&named, command->bytes, sizeof named);
    memcpy(&plain, command->bytes, sizeof plain);
    CFE_SB_MessageStringGet(arguments.name, longest.Payload.AppName, NULL, sizeof arguments.name,
                            sizeof longest.Payload.AppName);
    arguments.id = longest.Payload.EventID;
    arguments.mask = longest.Payload.Mask;
    arguments.bits = commands[code].one ? named.Payload.BitMask : plain.Payload.BitMask;
    if (!commands[code].one)
        arguments.name[0] = '\0';
    return arguments;
}

static struct outcome do_command(const struct arguments *arguments)
{
    if (commands[arguments->code].all)
        return commands[arguments->code].all(arguments);
    struct app *app = fsw_app_named(arguments->name);
    if (!app)
        return no_application;
    return app->is_registered ? commands[arguments->code].one(arguments, app) : not_registered;
}

static void refuse(uint16 id, const char *words, uint32_t code, size_t size)
{
    fsw_resume();
    fsw_layer.event_command_errors++;
    fsw_leave();
    fsw_reply(service_name, id, CFE_EVS_EventType_ERROR, "%s: CC = %u, Len = %u", words,
              (unsigned)code, (unsigned)size);
}

void fsw_serve_events(const struct fsw_command *command)
{
    uint32_t code = fsw_code_of(command);
    if (code >= COMMANDS || commands[code].size == 0) {
        refuse(CFE_EVS_ERR_CC_EID, "Invalid command code", code, command->size);
        return;
    }
    if (command->size != commands[code].size) {
        refuse(CFE_EVS_LEN_ERR_EID, "Invalid msg length", code, command->size);
        return;
    }
    const struct arguments arguments = arguments_of(command, code);
    fsw_resume();
    struct outcome outcome = do_command(&arguments);
    if (!outcome.is_done)
        fsw_layer.event_command_errors++;
    else if (code != CFE_EVS_RESET_COUNTERS_CC)
        fsw_layer.event_commands++;
    fsw_leave();
    fsw_reply(service_name, outcome.id, outcome.type, "%s: CC = %u%s%s", outcome.words,
              (unsigned)code, arguments.name[0] ? ", AppName = " : "", arguments.name);
}

/* ---- Housekeeping ---- */

static void write_applications(CFE_EVS_AppTlmData_t *data)
{
    size_t count = 0;
    for (uint32_t i = 0; i < fsw_layer.apps && count < CFE_MISSION_ES_MAX_APPLICATIONS; i++) {
        const struct app *app = &fsw_layer.app[i];
        if (app->is_registered && !app->has_ended)
            data[count++] =
                (CFE_EVS_AppTlmData_t){app->number, app->events_sent, app->sends_events, 0};
    }
}

void fsw_send_event_housekeeping(const struct fsw_command *command)
{
    CFE_EVS_HousekeepingTlm_t packet;
    const struct fsw_event_counts *base = &fsw_layer.event_counts;
    struct fsw_event_counts now;
    (void)command;
    fsw_resume();
    CFE_MSG_Init(CFE_MSG_PTR(packet.TelemetryHeader), CFE_EVS_HK_TLM_MID, sizeof packet);
    fsw_must(fsw_event_counts(&fsw_layer.core, &now) != FSW_SUCCESS);
    packet.Payload = (CFE_EVS_HousekeepingTlm_Payload_t){
        .CommandCounter = fsw_layer.event_commands,
        .CommandErrorCounter = fsw_layer.event_command_errors,
        .MessageFormatMode = LONG_FORMAT,
        .MessageTruncCounter = (uint8)(now.cut - base->cut),
        .UnregisteredAppCounter = fsw_layer.unregistered_events,
        .OutputPort = fsw_layer.config.prints_events ? CFE_EVS_PORT1_BIT : 0,
        .LogFullFlag = now.logged == LOG_LINES,
        .LogMode = (uint8)now.mode,
        .MessageSendCounter = fsw_layer.events_sent,
        .LogOverflowCounter = (uint16)(now.lost - base->lost),
        .LogEnabled = true,
    };
    write_applications(packet.Payload.AppData);
    fsw_send_own(fsw_self->app, &packet.TelemetryHeader, sizeof packet);
    fsw_leave();
}
