/* fuzz_config.c: configuration files of sbn_zmq. What is accepted is whole; what isn't has a cause.
 */
#define _GNU_SOURCE
#include "fuzz.h"
#include "sbn_config.h"

#include <string.h>
#include <sys/mman.h>
#include <unistd.h>

static bool is_text(const char *text, size_t most)
{
    return text[0] && memchr(text, '\0', most);
}

static void check_peer(const SBN_Config_t *config, uint32 place)
{
    const SBN_Peer_t *peer = &config->Peer[place];
    MUST(is_text(peer->Name, sizeof peer->Name) && is_text(peer->Address, sizeof peer->Address));
    MUST(strncmp(peer->Address, "tcp://", 6) == 0);
    MUST(!config->IsPlain || strncmp(peer->Address, "tcp://127.", 10) == 0);
    MUST(config->IsPlain || strlen(peer->Key) == SBN_KEY_TEXT - 1);
    MUST(peer->Publishes.Count <= SBN_MOST_IDS && peer->Commands.Count <= SBN_MOST_IDS);
    for (uint32 i = 0; i < peer->Publishes.Count; i++)
        MUST(peer->Publishes.Id[i] > 0 && peer->Publishes.Id[i] < 0x1000);
    for (uint32 i = 0; i < peer->Commands.Count; i++)
        MUST(peer->Commands.Id[i] >= 0x1000 && peer->Commands.Id[i] < 0x2000);
    for (uint32 i = 0; i < place; i++)
        MUST(strcmp(config->Peer[i].Name, peer->Name) != 0);
}

int LLVMFuzzerTestOneInput(const uint8_t *input, size_t size)
{
    static SBN_Config_t config;
    char path[32];
    /* An included file is another input's matter. */
    if (memmem(input, size, "@include", 8))
        return 0;
    int file = memfd_create("sbn.conf", 0);
    MUST(file >= 0 && write(file, input, size) == (ssize_t)size);
    snprintf(path, sizeof path, "/proc/self/fd/%d", file);
    bool is_good = SBN_ReadConfig(&config, path, "alpha", NULL);
    close(file);
    MUST(memchr(config.Fault, '\0', sizeof config.Fault));
    MUST(is_good == !config.Fault[0]);
    if (!is_good)
        return 0;
    /* Without a file of the secret key only a plain one is good. */
    MUST(config.IsPlain && config.Peers >= 2 && config.Peers <= SBN_MOST_PEERS);
    MUST(config.Self < config.Peers && config.Age <= SBN_MOST_AGE);
    for (uint32 i = 0; i < config.Peers; i++)
        check_peer(&config, i);
    return 0;
}
