# The examples in cFE's names, and their tests.

# What each program is of.
MISSION = mission ground_link sample_app
LABS = labs sch_lab ci_lab to_lab hk lc
NODE = sbn_node sbn_zmq sbn_frame sbn_config
SAMPLE = sample_test sample_app
TEN = $(patsubst examples/ten_apps/%.c,%,$(wildcard examples/ten_apps/*.c))
objects = $(patsubst %,$(BUILD)/%$(2).o,$($(1)))

# Processes are joined by ZeroMQ, and libconfig reads how, where both are installed; for another processor they are in SYSROOT.
NODE_HEADERS = $(and $(wildcard $(1)/usr/include/zmq.h),$(wildcard $(1)/usr/include/libconfig.h))
HAS_ZMQ = $(if $(IS_FOREIGN),$(and $(SYSROOT),$(call NODE_HEADERS,$(SYSROOT))),$(call NODE_HEADERS))
ZMQ_PLACES = $(addprefix $(SYSROOT),/usr/lib/$(TARGET) /lib/$(TARGET))
ZMQ = $(if $(IS_FOREIGN),$(addprefix -L,$(ZMQ_PLACES)) $(addprefix -Wl$(comma)-rpath-link$(comma),$(ZMQ_PLACES))) -lzmq -lconfig

INSTALLED_SHARE += examples/template

INCLUDES += -Iexamples $(if $(IS_FOREIGN),$(addprefix -isystem ,$(SYSROOT:=/usr/include)))
HEADERS += $(wildcard examples/*.h examples/ten_apps/*.h)
ANALYZED += $(wildcard examples/template/*.c examples/ten_apps/*.c)
ANALYZED += $(addprefix examples/,my_app.c two_apps.c sample_app_tbl.c $(addsuffix .c,$(MISSION) $(LABS) $(if $(HAS_ZMQ),$(NODE) sbn_keys)))
PROGRAMS += $(addprefix $(BUILD)/,my_app two_apps mission labs ten_apps $(if $(HAS_ZMQ),sbn_node sbn_keys))
# The programs under a sanitizer run in the whole test alone.
SANITIZED_PROGRAMS = mission.address mission.thread labs.address labs.thread ten_apps.address ten_apps.thread $(if $(HAS_ZMQ),sbn_node.address sbn_node.thread)
TESTS += $(addprefix $(BUILD)/,sample_app_tbl.o sample_test sample_test.address sample_test.thread $(if $(SHORT),,$(SANITIZED_PROGRAMS)))

$(BUILD)/%.o: examples/test/%.c $(HEADERS) | $(BUILD)
	$(COMPILE) -c $< -o $@

$(BUILD)/%.o: examples/ten_apps/%.c $(HEADERS) | $(BUILD)
	$(COMPILE) -c $< -o $@

$(BUILD)/my_app: $(BUILD)/my_app.o $(CFE)
	$(CC) $(CFLAGS) -pthread -o $@ $^

$(BUILD)/two_apps: $(BUILD)/two_apps.o $(CFE)
	$(CC) $(CFLAGS) -pthread -o $@ $^

$(BUILD)/mission: $(call objects,MISSION) $(CFE)
	$(CC) $(CFLAGS) -pthread -o $@ $^

$(BUILD)/labs: $(call objects,LABS) $(CFE)
	$(CC) $(CFLAGS) -pthread -o $@ $^

$(BUILD)/labs.address: $(call objects,LABS,.address) $(ADDRESS_CFE)
	$(CC) $(ADDRESS) -pthread -o $@ $^

$(BUILD)/labs.thread: $(call objects,LABS,.thread) $(THREAD_CFE)
	$(CC) $(THREAD) -pthread -o $@ $^

$(BUILD)/mission.address: $(call objects,MISSION,.address) $(ADDRESS_CFE)
	$(CC) $(ADDRESS) -pthread -o $@ $^

$(BUILD)/mission.thread: $(call objects,MISSION,.thread) $(THREAD_CFE)
	$(CC) $(THREAD) -pthread -o $@ $^

$(BUILD)/ten_apps: $(call objects,TEN) $(CFE)
	$(CC) $(CFLAGS) -pthread -o $@ $^

$(BUILD)/ten_apps.address: $(call objects,TEN,.address) $(ADDRESS_CFE)
	$(CC) $(ADDRESS) -pthread -o $@ $^

$(BUILD)/ten_apps.thread: $(call objects,TEN,.thread) $(THREAD_CFE)
	$(CC) $(THREAD) -pthread -o $@ $^

$(BUILD)/sample_test: $(call objects,SAMPLE) $(CFE)
	$(CC) $(CFLAGS) -pthread -o $@ $^

$(BUILD)/sample_test.address: $(call objects,SAMPLE,.address) $(ADDRESS_CFE)
	$(CC) $(ADDRESS) -pthread -o $@ $^

$(BUILD)/sample_test.thread: $(call objects,SAMPLE,.thread) $(THREAD_CFE)
	$(CC) $(THREAD) -pthread -o $@ $^

$(BUILD)/sbn_keys: $(BUILD)/sbn_keys.o
	$(CC) $(CFLAGS) -o $@ $^ $(ZMQ)

$(BUILD)/sbn_node: $(call objects,NODE) $(CFE)
	$(CC) $(CFLAGS) -pthread -o $@ $^ $(ZMQ)

$(BUILD)/sbn_node.address: $(call objects,NODE,.address) $(ADDRESS_CFE)
	$(CC) $(ADDRESS) -pthread -o $@ $^ $(ZMQ)

$(BUILD)/sbn_node.thread: $(call objects,NODE,.thread) $(THREAD_CFE)
	$(CC) $(THREAD) -pthread -o $@ $^ $(ZMQ)
