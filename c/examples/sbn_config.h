/*
 * sbn_config.h: the configuration of sbn_zmq's links, in libconfig's format. All processes read the
 * same file; each has a secret key of its own in another:
 *
 *     age = 5000;
 *     peers = (
 *         { name = "alpha"; address = "tcp://10.0.0.1:5561"; key = "..";
 *           publishes = [0x0883, 0x0808]; receives = [0x0890]; },
 *         { name = "beta"; address = "tcp://10.0.0.2:5561"; key = "..";
 *           publishes = [0x0890]; commands = [0x1882]; }
 *     );
 *
 * docs/LINKS.md says what each setting is.
 */
#ifndef SBN_CONFIG_H
#define SBN_CONFIG_H

#include "cfe.h"

#define SBN_MOST_PEERS   8
#define SBN_MOST_IDS     32
#define SBN_MOST_NAME    16
#define SBN_MOST_ADDRESS 64
#define SBN_KEY_TEXT     41 /* a key as Z85, with its zero byte */
#define SBN_USUAL_AGE    5000
#define SBN_MOST_AGE     3600000

typedef struct {
    uint32 Count;
    CFE_SB_MsgId_t Id[SBN_MOST_IDS];
} SBN_Ids_t;

/* A process of the file. */
typedef struct {
    char Name[SBN_MOST_NAME];
    char Address[SBN_MOST_ADDRESS]; /* where it listens */
    char Key[SBN_KEY_TEXT];         /* its public key; empty where links are plain */
    SBN_Ids_t Publishes;            /* telemetry that it may send */
    SBN_Ids_t Commands;             /* commands that it may send */
    SBN_Ids_t Receives;             /* what the others may send to it */
} SBN_Peer_t;

typedef struct {
    bool IsPlain; /* no keys; all addresses are loopback */
    uint32 Age;   /* a message that took longer is dropped, in ms; 0: none is */
    uint32 Peers; /* how many processes there are */
    uint32 Self;  /* which of them this is */
    SBN_Peer_t Peer[SBN_MOST_PEERS];
    char Secret[SBN_KEY_TEXT];
    char Fault[328]; /* what is wrong: file, line, cause */
} SBN_Config_t;

/*
 * Reads the file, for the process of this name; SecretFile is null where links are plain. Whether
 * nothing is wrong with them.
 */
bool SBN_ReadConfig(SBN_Config_t *Config, const char *File, const char *Name,
                    const char *SecretFile);

/* Whether this peer may send the id, and that one may receive it. */
bool SBN_MaySend(const SBN_Peer_t *From, const SBN_Peer_t *To, CFE_SB_MsgId_t Id);

#endif
