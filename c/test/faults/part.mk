# Harnesses of faults, built by `make faults`: clang's libFuzzer on what comes from outside, and memory that is refused.

FUZZ = -fsanitize=address,undefined -fno-sanitize-recover=undefined
FUZZED_CFE = $(patsubst cfe/%.c,$(BUILD)/%.fuzz.o,$(CFE_SOURCES)) $(BUILD)/osapi.fuzz.o $(if $(LIBRARY),$(CORE),$(BUILD)/fake.fuzz.o $(BUILD)/fsw_text.fuzz.o)
FUZZERS = $(addprefix $(BUILD)/,fuzz_datagram fuzz_frame fuzz_table $(if $(HAS_ZMQ),fuzz_config))
ANALYZED += $(addprefix test/faults/,fuzz_datagram.c fuzz_frame.c fuzz_table.c refused_test.c $(if $(HAS_ZMQ),fuzz_config.c))

$(foreach folder,. cfe osal test examples test/faults,$(eval $(BUILD)/%.fuzz.o: $(folder)/%.c $(HEADERS) test/faults/fuzz.h | $(BUILD) ; clang -O1 -g -std=gnu11 -Wall -Wextra -fsanitize=fuzzer-no-link $(FUZZ) $(INCLUDES) -pthread -c $$< -o $$@))

FUZZER = clang -fsanitize=fuzzer $(FUZZ) -pthread -o $@ $^

$(BUILD)/fuzz_datagram: $(BUILD)/fuzz_datagram.fuzz.o $(BUILD)/ground_link.fuzz.o $(FUZZED_CFE)
	$(FUZZER)

$(BUILD)/fuzz_frame: $(BUILD)/fuzz_frame.fuzz.o $(BUILD)/sbn_frame.fuzz.o $(FUZZED_CFE)
	$(FUZZER)

$(BUILD)/fuzz_table: $(BUILD)/fuzz_table.fuzz.o $(FUZZED_CFE)
	$(FUZZER)

$(BUILD)/fuzz_config: $(BUILD)/fuzz_config.fuzz.o $(BUILD)/sbn_config.fuzz.o $(FUZZED_CFE)
	$(FUZZER) $(ZMQ)

$(BUILD)/refused_test: test/faults/refused_test.c $(BUILD)/libfsw_osal.a $(BUILD)/libfsw_cfe.a $(UNREFUSED) $(HEADERS)
	$(COMPILE) -pthread -Wl,--wrap=malloc,--wrap=calloc -o $@ $(filter %.c %.a %.o,$^)

faults: everything $(BUILD)/refused_test $(BUILD)/threads_test.thread
fuzzers: $(FUZZERS)

.PHONY: faults fuzzers
