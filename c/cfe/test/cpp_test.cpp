/*
 * cpp_test.cpp: applications in C++. A task that ends within a call leaves no catch (...) and no
 * noexcept behind, so the program goes on; its destructors aren't called.
 */
#include "cfe.h"
#include "check.h"
#include "fsw_run.h"

namespace {

int destroyed, caught;

struct Local {
    ~Local() { destroyed++; }
};

void exit_child() noexcept
{
    Local local;
    CFE_ES_ExitChildTask();
}

void be_child()
{
    try {
        exit_child();
    } catch (...) {
        caught++;
    }
}

void be_first()
{
    CFE_ES_TaskId_t task;
    CHECK_STATUS(CFE_ES_CreateChildTask(&task, "CHILD", be_child, nullptr, 0, 0, 0), CFE_SUCCESS);
    try {
        Local local;
        CFE_ES_ExitApp(CFE_ES_RunStatus_APP_EXIT);
    } catch (...) {
        caught++;
    }
}

} // namespace

int main()
{
    const fsw_app app = {"FIRST", be_first, 0, 0};
    CHECK(fsw_run(nullptr, &app, 1) == 0);
    CHECK(destroyed == 0 && caught == 0);
    printf("cpp_test passed\n");
    return 0;
}
