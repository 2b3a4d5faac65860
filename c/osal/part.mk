# What applications use most of cFE's OS layer, for programs that haven't cFE's own: libfsw_osal.a over the layer in cFE's names.

OSAL_HEADERS = $(wildcard osal/*.h)

INCLUDES += -Iosal
HEADERS += $(OSAL_HEADERS)
LIBRARIES += $(BUILD)/libfsw_osal.a
PACKAGES += osal/fsw_osal.pc.in
ANALYZED += osal/osapi.c
TESTS += $(BUILD)/other_osal_test

$(BUILD)/%.o: osal/%.c $(HEADERS) | $(BUILD)
	$(COMPILE) -pthread -c $< -o $@

$(BUILD)/libfsw_osal.a: $(BUILD)/osapi.o
	rm -f $@
	$(AR) rcs $@ $^

# Applications over another OS layer, whose headers stand first. Nothing of osal/ is compiled or linked.
OTHER = osal/test/other_osal_test.c osal/test/other/other_osal.c
$(BUILD)/other_osal_test: $(OTHER) $(wildcard osal/test/other/*.h) $(BUILD)/libfsw_cfe.a $(CORE) $(HEADERS)
	$(CC) $(CFLAGS) $(WARNINGS) -Iosal/test/other -Icfe -Iinclude -Itest -pthread -o $@ $(OTHER) $(BUILD)/libfsw_cfe.a $(CORE)
