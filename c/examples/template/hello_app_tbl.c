/* hello_app_tbl.c: the table as a source; table_file.py makes hello_app.tbl of it. */
#include "cfe_tbl_filedef.h"
#include "hello_app.h"

HELLO_APP_Table_t HELLO_APP_Settings = {5};

CFE_TBL_FILEDEF(HELLO_APP_Settings, HELLO_APP.Settings, Settings of HELLO_APP, hello_app.tbl)
