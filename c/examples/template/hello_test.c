/* hello_test.c: plays scheduler and ground for HELLO_APP on the bus, and looks at housekeeping. */
#include "fsw_run.h"
#include "hello_app.h"

#include <stdio.h>
#include <string.h>

static int failures;

static void expect(const char *what, unsigned is, unsigned wanted)
{
    if (is == wanted)
        return;
    printf("hello_test: %s is %u, not %u\n", what, is, wanted);
    failures++;
}

static void send_command(CFE_SB_MsgId_t id, CFE_MSG_FcnCode_t code, size_t size)
{
    union {
        CFE_MSG_Message_t Msg;
        uint8 bytes[sizeof(CFE_MSG_CommandHeader_t) + 4];
    } packet;
    memset(&packet, 0, sizeof packet);
    CFE_MSG_Init(&packet.Msg, id, size);
    CFE_MSG_SetFcnCode(&packet.Msg, code);
    CFE_SB_TransmitMsg(&packet.Msg, true);
}

static void expect_housekeeping(CFE_SB_PipeId_t pipe, unsigned accepted, unsigned refused,
                                unsigned total)
{
    CFE_SB_Buffer_t *buffer;
    send_command(HELLO_APP_SEND_HK_MID, 0, sizeof(CFE_MSG_CommandHeader_t));
    CFE_Status_t status = CFE_SB_ReceiveBuffer(&buffer, pipe, 10000);
    expect("the status of a receive", (unsigned)status, CFE_SUCCESS);
    if (status != CFE_SUCCESS)
        return;
    const HELLO_APP_HkTlm_t *hk = (const HELLO_APP_HkTlm_t *)buffer;
    expect("CommandCounter", hk->CommandCounter, accepted);
    expect("CommandErrorCounter", hk->CommandErrorCounter, refused);
    expect("Total", hk->Total, total);
}

static void GROUND_Main(void)
{
    const size_t size = sizeof(CFE_MSG_CommandHeader_t);
    CFE_SB_PipeId_t pipe;
    CFE_SB_CreatePipe(&pipe, 4, "GROUND_PIPE");
    CFE_SB_Subscribe(CFE_SB_ValueToMsgId(HELLO_APP_HK_TLM_MID), pipe);
    CFE_ES_WaitForStartupSync(10000);
    expect_housekeeping(pipe, 0, 0, 0);
    for (int i = 0; i < 3; i++)
        send_command(HELLO_APP_WAKEUP_MID, 0, size);
    expect_housekeeping(pipe, 0, 0, 15);
    send_command(HELLO_APP_CMD_MID, HELLO_APP_NOOP_CC, size);
    send_command(HELLO_APP_CMD_MID, HELLO_APP_NOOP_CC, size + 4);
    send_command(HELLO_APP_CMD_MID, 99, size);
    expect_housekeeping(pipe, 1, 2, 15);
    send_command(HELLO_APP_CMD_MID, HELLO_APP_RESET_CC, size);
    expect_housekeeping(pipe, 2, 2, 0);
    fsw_stop();
}

int main(void)
{
    static const struct fsw_app apps[] = {{.name = "HELLO_APP", .entry = HELLO_APP_Main},
                                          {.name = "GROUND", .entry = GROUND_Main}};
    int errors = fsw_run(NULL, apps, sizeof apps / sizeof apps[0]);
    expect("what fsw_run answers", (unsigned)errors, 0);
    printf("hello_test: %s\n", failures ? "failed" : "passed");
    return failures ? 1 : 0;
}
