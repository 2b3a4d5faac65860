/*
 * es.c: Executive Services in cFE's names: applications by name and the system log.
 */
#include "layer.h"

#include <stdarg.h>
#include <stdio.h>
#include <string.h>
#include <unistd.h>

/* The bytes of a line of the system log, with its zero byte. */
enum { MOST_LINE = 256 };

/* ---- Applications ---- */

struct app *fsw_app_numbered(CFE_ES_AppId_t number)
{
    bool is_live = 1 <= number && number <= fsw_layer.apps && !fsw_layer.app[number - 1].has_ended;
    return is_live ? &fsw_layer.app[number - 1] : NULL;
}

struct app *fsw_app_named(const char *name)
{
    for (uint32_t i = 0; i < fsw_layer.apps; i++)
        if (!fsw_layer.app[i].has_ended && strcmp(fsw_layer.app[i].name, name) == 0)
            return &fsw_layer.app[i];
    return NULL;
}

CFE_Status_t CFE_ES_GetAppID(CFE_ES_AppId_t *AppIdPtr)
{
    if (!AppIdPtr)
        return CFE_ES_BAD_ARGUMENT;
    *AppIdPtr = CFE_ES_APPID_UNDEFINED;
    struct app *app = fsw_enter();
    if (!app)
        return CFE_ES_ERR_RESOURCEID_NOT_VALID;
    *AppIdPtr = app->number;
    fsw_leave();
    return CFE_SUCCESS;
}

CFE_Status_t CFE_ES_GetAppIDByName(CFE_ES_AppId_t *AppIdPtr, const char *AppName)
{
    if (!AppIdPtr || !AppName)
        return CFE_ES_BAD_ARGUMENT;
    *AppIdPtr = CFE_ES_APPID_UNDEFINED;
    if (!fsw_enter())
        return CFE_ES_ERR_NAME_NOT_FOUND;
    const struct app *app = fsw_app_named(AppName);
    if (app)
        *AppIdPtr = app->number;
    fsw_leave();
    return app ? CFE_SUCCESS : CFE_ES_ERR_NAME_NOT_FOUND;
}

CFE_Status_t CFE_ES_GetAppName(char *AppName, CFE_ES_AppId_t AppId, size_t BufferLength)
{
    CFE_Status_t status = CFE_ES_ERR_RESOURCEID_NOT_VALID;
    if (!AppName || BufferLength == 0)
        return CFE_ES_BAD_ARGUMENT;
    AppName[0] = '\0';
    if (!fsw_enter())
        return status;
    const struct app *app = fsw_app_numbered(AppId);
    if (app) {
        snprintf(AppName, BufferLength, "%s", app->name);
        status = CFE_SUCCESS;
    }
    fsw_leave();
    return status;
}

/* Adds the time and the caller's name. */
static void write_log_line(const char *text)
{
    char line[2 * MOST_LINE];
    CFE_TIME_SysTime_t now = CFE_TIME_GetTime();
    snprintf(line, sizeof line, "%u.%03u %s: %s\n", (unsigned)now.Seconds,
             (unsigned)((uint64_t)now.Subseconds * 1000 >> 32),
             fsw_self ? fsw_self->app->name : "fsw_run", text);
    fsw_print_line(STDERR_FILENO, line);
}

CFE_Status_t CFE_ES_WriteToSysLog(const char *SpecStringPtr, ...)
{
    char text[MOST_LINE], shown[MOST_LINE];
    if (!SpecStringPtr)
        return CFE_ES_BAD_ARGUMENT;
    va_list arguments;
    va_start(arguments, SpecStringPtr);
    int length = vsnprintf(text, sizeof text, SpecStringPtr, arguments);
    va_end(arguments);
    if (length < 0)
        return CFE_ES_BAD_ARGUMENT;
    /* Applications leave the line's end to cFE, or write it. */
    size_t last = strlen(text);
    if (last > 0 && text[last - 1] == '\n')
        text[last - 1] = '\0';
    fsw_copy_printable(shown, sizeof shown, text);
    write_log_line(shown);
    return length < (int)sizeof text ? CFE_SUCCESS : CFE_ES_ERR_SYS_LOG_TRUNCATED;
}
