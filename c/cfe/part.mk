# The layer in cFE's names: libfsw_cfe.a over the library, its tests, what of it is installed and analyzed.

CFE_SOURCES = $(wildcard cfe/*.c)
CFE_OBJECTS = $(patsubst cfe/%.c,$(BUILD)/%.o,$(CFE_SOURCES))
CFE_HEADERS = $(wildcard cfe/*.h)
CFE = $(BUILD)/libfsw_osal.a $(BUILD)/libfsw_cfe.a $(CORE)

INCLUDES += -Icfe -Icfe/test
HEADERS += $(CFE_HEADERS) $(wildcard cfe/test/*.h)
LIBRARIES += $(BUILD)/libfsw_cfe.a
INSTALLED_HEADERS += $(filter-out cfe/layer.h cfe/layer_tbl.h,$(CFE_HEADERS))
PACKAGES += cfe/fsw_cfe.pc.in
ANALYZED += $(CFE_SOURCES) bench/layer_cost.c bench/layer_held.c
BENCHES += $(addprefix $(BUILD)/,layer_cost layer_held)
TESTS += $(addprefix $(BUILD)/,layer_test services_test services_test.address es_test es_test.address layer_test.address layer_test.thread pools_test pools_test.address pools_test.thread tables_test tables_test.address tables_test.thread priority_test faults_test faults_test.address faults_test.thread taken_test threads_test threads_test.thread soak_test)

# C++ is tried where it is installed.
TESTS += $(if $(shell command -v $(CXX)),$(BUILD)/cpp_test)

$(BUILD)/%.o: cfe/%.c $(HEADERS) | $(BUILD)
	$(COMPILE) -pthread -c $< -o $@

$(BUILD)/%.o: cfe/test/%.c $(HEADERS) | $(BUILD)
	$(COMPILE) -pthread -c $< -o $@

$(BUILD)/libfsw_cfe.a: $(CFE_OBJECTS)
	rm -f $@
	$(AR) rcs $@ $^

$(BUILD)/%_test: $(BUILD)/%_test.o $(CFE)
	$(CC) $(CFLAGS) -pthread -o $@ $^

$(BUILD)/cpp_test: cfe/test/cpp_test.cpp $(CFE) $(HEADERS)
	$(CXX) $(CFLAGS) -Wall -Wextra -std=c++17 $(INCLUDES) -pthread -o $@ $< $(CFE)

$(BUILD)/layer_cost: bench/layer_cost.c $(CFE) $(HEADERS)
	$(COMPILE) -pthread -o $@ $< $(CFE)

# The fake ends the program if it gets no memory, so its own requests are neither refused nor counted.
UNREFUSED = $(if $(LIBRARY),$(CORE),$(BUILD)/fake.unrefused.o $(BUILD)/fsw_text.o)
$(BUILD)/fake.unrefused.o: test/fake.c $(HEADERS) | $(BUILD)
	$(COMPILE) -Dmalloc=__real_malloc -Dcalloc=__real_calloc -c $< -o $@

REQUESTS = $(addprefix -Wl$(comma)--wrap=,malloc calloc realloc)

$(BUILD)/taken_test: $(BUILD)/taken_test.o $(BUILD)/libfsw_osal.a $(BUILD)/libfsw_cfe.a $(UNREFUSED)
	$(CC) $(CFLAGS) -pthread -o $@ $^ $(REQUESTS)

WATCHED = $(addprefix -Wl$(comma)--wrap=pthread_mutex_,lock unlock)

$(BUILD)/layer_held: bench/layer_held.c $(CFE) $(HEADERS)
	$(COMPILE) -pthread -o $@ $< $(CFE) $(WATCHED)

# ---- With a sanitizer: X.address, X.thread ----

ADDRESS_CFE = $(CFE_OBJECTS:.o=.address.o) $(BUILD)/osapi.address.o $(if $(LIBRARY),$(CORE),$(BUILD)/fake.address.o $(BUILD)/fsw_text.address.o)
THREAD_CFE = $(CFE_OBJECTS:.o=.thread.o) $(BUILD)/osapi.thread.o $(if $(LIBRARY),$(CORE),$(BUILD)/fake.thread.o $(BUILD)/fsw_text.thread.o)

SOURCE_FOLDERS = . cfe osal cfe/test test examples examples/test examples/ten_apps

define sanitized_objects
$(BUILD)/%.address.o: $(1)/%.c $$(HEADERS) | $(BUILD)
	$$(CC) $$(SANITIZED) $$(ADDRESS) $$(INCLUDES) -pthread -c $$< -o $$@

$(BUILD)/%.thread.o: $(1)/%.c $$(HEADERS) | $(BUILD)
	$$(CC) $$(SANITIZED) $$(THREAD) $$(INCLUDES) -pthread -c $$< -o $$@
endef
$(foreach folder,$(SOURCE_FOLDERS),$(eval $(call sanitized_objects,$(folder))))

$(BUILD)/%_test.address: $(BUILD)/%_test.address.o $(ADDRESS_CFE)
	$(CC) $(ADDRESS) -pthread -o $@ $^

$(BUILD)/%_test.thread: $(BUILD)/%_test.thread.o $(THREAD_CFE)
	$(CC) $(THREAD) -pthread -o $@ $^
