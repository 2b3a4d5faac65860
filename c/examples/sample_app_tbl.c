/* sample_app_tbl.c: a table of sample_app, as for cFE; table_file.py makes a table file of it. */
#include "cfe_tbl_filedef.h"
#include "sample_app.h"

SAMPLE_APP_Table_t SampleAppTable = {3, 8};

CFE_TBL_FILEDEF(SampleAppTable, SAMPLE_APP.SampleAppTable, Table of sample_app, sample_app.tbl)
