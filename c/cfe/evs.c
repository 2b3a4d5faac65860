/*
 * evs.c: Event Services in cFE's names: filters, types and formats. The core has the filters and
 * counts; here is what cFE has beside them: types that are off, and filters that lock.
 */
#include "cfe_evs_events.h"
#include "layer.h"

#include <stdarg.h>
#include <stdio.h>
#include <string.h>

static const char service_name[] = "CFE_EVS";

/* ---- Filters ---- */

/* The application's filter of this id, or null. */
static struct filter *filter_of(struct app *app, uint16 id)
{
    for (uint32_t i = 0; i < app->filters; i++)
        if (app->filter[i].id == id)
            return &app->filter[i];
    return NULL;
}

uint32_t fsw_set_filters(struct app *app, const CFE_EVS_BinFilter_t *filters, uint32_t count)
{
    struct fsw_filter given[MOST_FILTERS];
    app->filters = 0;
    for (uint32_t i = 0; i < count && i < MOST_FILTERS; i++) {
        /* As in cFE, the first filter of an id is the one that is found. */
        if (filter_of(app, filters[i].EventID))
            continue;
        given[app->filters] = (struct fsw_filter){filters[i].EventID, filters[i].Mask};
        app->filter[app->filters++] = (struct filter){filters[i].EventID, filters[i].Mask, 0};
    }
    return fsw_register(&fsw_layer.core, app->number, given, app->filters);
}

CFE_Status_t CFE_EVS_Register(const void *Filters, uint16 NumEventFilters, uint16 FilterScheme)
{
    if (FilterScheme != CFE_EVS_EventFilter_BINARY)
        return CFE_EVS_UNKNOWN_FILTER;
    if (NumEventFilters > 0 && !Filters)
        return CFE_ES_BAD_ARGUMENT;
    struct app *app = fsw_enter();
    if (!app)
        return CFE_ES_ERR_RESOURCEID_NOT_VALID;
    uint32_t status = fsw_set_filters(app, Filters, NumEventFilters);
    if (status == FSW_SUCCESS) {
        app->is_registered = app->sends_events = true;
        app->event_types = CFE_PLATFORM_EVS_DEFAULT_TYPE_FLAG;
    }
    /* As in cFE, the first eight filters are taken then. */
    if (status == FSW_SUCCESS && NumEventFilters > MOST_FILTERS)
        status = (uint32_t)CFE_EVS_APP_FILTER_OVERLOAD;
    return fsw_leave_with(status, CFE_EVS_INVALID_PARAMETER);
}

uint32_t fsw_unlock_filter(struct app *app, uint16 id)
{
    struct filter *filter = filter_of(app, id);
    if (filter)
        filter->seen = 0;
    return fsw_reset_filter(&fsw_layer.core, app->number, id);
}

CFE_Status_t CFE_EVS_ResetFilter(uint16 EventID)
{
    struct app *app = fsw_enter();
    if (!app)
        return CFE_ES_ERR_RESOURCEID_NOT_VALID;
    uint32_t status = fsw_unlock_filter(app, EventID);
    return fsw_leave_with(status, CFE_EVS_INVALID_PARAMETER);
}

uint32_t fsw_unlock_filters(struct app *app)
{
    for (uint32_t i = 0; i < app->filters; i++)
        fsw_must(fsw_unlock_filter(app, app->filter[i].id) != FSW_SUCCESS);
    return app->is_registered ? FSW_SUCCESS : FSW_EVS_APP_NOT_REGISTERED;
}

CFE_Status_t CFE_EVS_ResetAllFilters(void)
{
    struct app *app = fsw_enter();
    if (!app)
        return CFE_ES_ERR_RESOURCEID_NOT_VALID;
    return fsw_leave_with(fsw_unlock_filters(app), CFE_EVS_INVALID_PARAMETER);
}

/* ---- Events ---- */

/* Whether the application's events of this type are on. A type that is none is the core's to
 * refuse. */
static bool is_on(const struct app *app, uint16 type)
{
    bool is_type = CFE_EVS_EventType_DEBUG <= type && type <= CFE_EVS_EventType_CRITICAL;
    return !is_type || (app->sends_events && app->event_types >> (type - 1) & 1);
}

enum verdict { GOES_ON, IS_LOCKED, LOCKS };

/* As in cFE, a filter locks once it has seen 65535 events, until it is reset. */
static enum verdict see(struct app *app, uint16 id)
{
    struct filter *filter = filter_of(app, id);
    if (!filter)
        return GOES_ON;
    if (filter->seen == UINT16_MAX)
        return IS_LOCKED;
    return ++filter->seen == UINT16_MAX ? LOCKS : GOES_ON;
}

static void say_that_it_locks(const struct app *app, uint16 id)
{
    fsw_reply(service_name, CFE_EVS_FILTER_MAX_EID, CFE_EVS_EventType_INFORMATION,
              "Max filter count reached, AppName = %s, EventID = 0x%08x: Filter locked until reset",
              app->name, (unsigned)id);
}

/* Ends the caller's call by an event of an application's. */
static CFE_Status_t leave_with_event(struct app *app, const struct fsw_event *event)
{
    uint32_t passed = 0, status = FSW_SUCCESS;
    struct fsw_config config = fsw_layer.config;
    enum verdict verdict = IS_LOCKED;
    if (!app->is_registered || is_on(app, event->type))
        verdict = see(app, event->id);
    if (verdict != IS_LOCKED)
        status = fsw_send_event(&fsw_layer.core, app->number, event->id, event->type, event->text,
                                strlen(event->text), &passed);
    if (status == FSW_EVS_APP_NOT_REGISTERED)
        fsw_layer.unregistered_events++;
    passed = status == FSW_SUCCESS && passed;
    if (passed) {
        app->events_sent++;
        fsw_layer.events_sent++;
    }
    if (passed && config.sends_events)
        fsw_send_event_packet(event);
    fsw_leave_bus((struct fsw_asked){"", 0, 0}, FSW_SUCCESS);
    if (passed && config.prints_events)
        fsw_print_event(&config, event);
    if (verdict == LOCKS)
        say_that_it_locks(app, event->id);
    return fsw_status(status, CFE_EVS_INVALID_PARAMETER);
}

/* An event's text, at its most. */
struct text {
    char bytes[MOST_TEXT + 1];
};

static bool write_text(struct text *text, const char *format, va_list arguments)
{
    return format && vsnprintf(text->bytes, sizeof text->bytes, format, arguments) >= 0;
}

/* Sends an event at this time, of the caller's application; null: the present time. */
static CFE_Status_t send_own(const CFE_TIME_SysTime_t *time, uint16 id, uint16 type,
                             const char *text)
{
    struct app *app = fsw_enter();
    if (!app)
        return CFE_ES_ERR_RESOURCEID_NOT_VALID;
    const struct fsw_event event = {app->name, id, type, time ? *time : CFE_TIME_GetTime(), text};
    return leave_with_event(app, &event);
}

CFE_Status_t CFE_EVS_SendEvent(uint16 EventID, uint16 EventType, const char *Spec, ...)
{
    struct text text;
    va_list arguments;
    va_start(arguments, Spec);
    bool is_good = write_text(&text, Spec, arguments);
    va_end(arguments);
    return is_good ? send_own(NULL, EventID, EventType, text.bytes) : CFE_EVS_INVALID_PARAMETER;
}

CFE_Status_t CFE_EVS_SendTimedEvent(CFE_TIME_SysTime_t Time, uint16 EventID, uint16 EventType,
                                    const char *Spec, ...)
{
    struct text text;
    va_list arguments;
    va_start(arguments, Spec);
    bool is_good = write_text(&text, Spec, arguments);
    va_end(arguments);
    return is_good ? send_own(&Time, EventID, EventType, text.bytes) : CFE_EVS_INVALID_PARAMETER;
}

CFE_Status_t CFE_EVS_SendEventWithAppID(uint16 EventID, uint16 EventType, CFE_ES_AppId_t AppID,
                                        const char *Spec, ...)
{
    struct text text;
    va_list arguments;
    va_start(arguments, Spec);
    bool is_good = write_text(&text, Spec, arguments);
    va_end(arguments);
    if (!is_good)
        return CFE_EVS_INVALID_PARAMETER;
    if (!fsw_enter())
        return CFE_ES_ERR_RESOURCEID_NOT_VALID;
    struct app *app = fsw_app_numbered(AppID);
    if (!app)
        return fsw_leave_with((uint32_t)CFE_EVS_APP_ILLEGAL_APP_ID, CFE_EVS_INVALID_PARAMETER);
    const struct fsw_event event = {app->name, EventID, EventType, CFE_TIME_GetTime(), text.bytes};
    return leave_with_event(app, &event);
}
