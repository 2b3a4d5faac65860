/* main.c: HELLO_APP, and a scheduler that wakes it each second, until SIGTERM or SIGINT. */
#include "fsw_run.h"
#include "hello_app.h"

static void SCH_Main(void)
{
    CFE_MSG_CommandHeader_t Wakeup;
    uint32 RunStatus = CFE_ES_RunStatus_APP_RUN;
    CFE_MSG_Init(CFE_MSG_PTR(Wakeup), CFE_SB_ValueToMsgId(HELLO_APP_WAKEUP_MID), sizeof(Wakeup));
    CFE_ES_WaitForStartupSync(10000);
    while (CFE_ES_RunLoop(&RunStatus)) {
        CFE_SB_TransmitMsg(CFE_MSG_PTR(Wakeup), true);
        OS_TaskDelay(1000);
    }
    CFE_ES_ExitApp(RunStatus);
}

int main(void)
{
    static const struct fsw_app apps[] = {{.name = "HELLO_APP", .entry = HELLO_APP_Main},
                                          {.name = "SCH", .entry = SCH_Main}};
    const struct fsw_config config = {.prints_events = true};
    fsw_configure(&config);
    if (!fsw_stop_at_signals())
        return 1;
    return fsw_run(NULL, apps, sizeof apps / sizeof apps[0]) == 0 ? 0 : 1;
}
