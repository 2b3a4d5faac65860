/* sbn_config.c: reads and checks the configuration. The first fault ends it. */
#include "sbn_config.h"

#include <arpa/inet.h>
#include <errno.h>
#include <fcntl.h>
#include <libconfig.h>
#include <stddef.h>
#include <stdio.h>
#include <string.h>
#include <sys/stat.h>
#include <unistd.h>
#include <zmq.h>

#define KEY_BYTES 32

/* Writes what is wrong in a line of the file, 0: in none; answers false. */
static bool Bad(SBN_Config_t *Config, const char *File, unsigned Line, const char *Cause,
                const char *Word)
{
    char Place[16] = "";
    if (Line > 0)
        snprintf(Place, sizeof(Place), ":%u", Line);
    snprintf(Config->Fault, sizeof(Config->Fault), "%.160s%s: %.80s%s%.64s", File, Place, Cause,
             Word ? " " : "", Word ? Word : "");
    return false;
}

static bool BadSetting(SBN_Config_t *Config, const config_setting_t *Setting, const char *Cause)
{
    return Bad(Config, config_setting_source_file(Setting), config_setting_source_line(Setting),
               Cause, config_setting_name(Setting));
}

/* ---- Settings of a peer ---- */

static bool ReadText(SBN_Config_t *Config, const config_setting_t *Setting, char *Text, size_t Most)
{
    const char *Value = config_setting_get_string(Setting);
    if (!Value || !*Value || strlen(Value) >= Most)
        return BadSetting(Config, Setting, "no text, or one too long:");
    /* The text goes into events and onto terminals. */
    for (const char *At = Value; *At; At++)
        if (*At <= ' ' || *At > '~')
            return BadSetting(Config, Setting, "a character that isn't printed:");
    strcpy(Text, Value);
    return true;
}

static bool HasId(const SBN_Ids_t *Ids, CFE_SB_MsgId_t Id)
{
    for (uint32 i = 0; i < Ids->Count; i++)
        if (CFE_SB_MsgId_Equal(Ids->Id[i], Id))
            return true;
    return false;
}

static bool IsCommand(CFE_SB_MsgId_t Id)
{
    CFE_MSG_Type_t Type = CFE_MSG_Type_Invalid;
    return CFE_MSG_GetTypeFromMsgId(Id, &Type) == CFE_SUCCESS && Type == CFE_MSG_Type_Cmd;
}

/* Reads ids, of which MayTlm and MayCmd say what they may be. */
static bool ReadIds(SBN_Config_t *Config, const config_setting_t *Setting, SBN_Ids_t *Ids,
                    bool MayTlm, bool MayCmd)
{
    int Count = config_setting_length(Setting);
    if (!config_setting_is_array(Setting) || Count > SBN_MOST_IDS)
        return BadSetting(Config, Setting, "no array, or more than 32 ids:");
    for (int i = 0; i < Count; i++) {
        const config_setting_t *Elem = config_setting_get_elem(Setting, (unsigned)i);
        int Value = config_setting_type(Elem) == CONFIG_TYPE_INT ? config_setting_get_int(Elem) : 0;
        CFE_SB_MsgId_t Id = CFE_SB_ValueToMsgId((CFE_SB_MsgId_Atom_t)Value);
        if (!CFE_SB_IsValidMsgId(Id) || HasId(Ids, Id))
            return BadSetting(Config, Setting, "no message id, or one twice:");
        if (IsCommand(Id) ? !MayCmd : !MayTlm)
            return BadSetting(Config, Setting, "commands stand in commands alone, not in");
        Ids->Id[Ids->Count++] = Id;
    }
    return true;
}

/* A setting of a peer: its name, where it is kept, and what it is. */
static const struct {
    const char *Name;
    size_t Place, Most; /* Most: the bytes of a text; 0: ids */
    bool MayTlm, MayCmd;
} Settings[] = {
    {"name", offsetof(SBN_Peer_t, Name), SBN_MOST_NAME, false, false},
    {"address", offsetof(SBN_Peer_t, Address), SBN_MOST_ADDRESS, false, false},
    {"key", offsetof(SBN_Peer_t, Key), SBN_KEY_TEXT, false, false},
    {"publishes", offsetof(SBN_Peer_t, Publishes), 0, true, false},
    {"commands", offsetof(SBN_Peer_t, Commands), 0, false, true},
    {"receives", offsetof(SBN_Peer_t, Receives), 0, true, true},
};

static bool ReadSetting(SBN_Config_t *Config, const config_setting_t *Setting, SBN_Peer_t *Peer)
{
    const char *Name = config_setting_name(Setting);
    size_t i = 0, Count = sizeof(Settings) / sizeof(Settings[0]);
    while (i < Count && strcmp(Settings[i].Name, Name) != 0)
        i++;
    if (i == Count)
        return BadSetting(Config, Setting, "no such setting:");
    void *At = (char *)Peer + Settings[i].Place;
    if (Settings[i].Most > 0)
        return ReadText(Config, Setting, At, Settings[i].Most);
    return ReadIds(Config, Setting, At, Settings[i].MayTlm, Settings[i].MayCmd);
}

/* ---- Peers ---- */

/* Whether an address is tcp://127.x.x.x:PORT. */
static bool IsLoopback(const char *Address)
{
    char Host[SBN_MOST_ADDRESS];
    struct in_addr Number;
    if (sscanf(Address, "tcp://%63[^:]:", Host) != 1 || inet_pton(AF_INET, Host, &Number) != 1)
        return false;
    return ntohl(Number.s_addr) >> 24 == 127;
}

static bool IsKey(const char *Key)
{
    uint8_t Bytes[KEY_BYTES];
    return strlen(Key) == SBN_KEY_TEXT - 1 && zmq_z85_decode(Bytes, Key);
}

/* Whether a peer before this one has the same name, address or key. */
static bool IsDoubled(const SBN_Config_t *Config, const SBN_Peer_t *Peer)
{
    for (uint32 i = 0; i < Config->Peers; i++) {
        const SBN_Peer_t *Other = &Config->Peer[i];
        if (strcmp(Other->Name, Peer->Name) == 0 || strcmp(Other->Address, Peer->Address) == 0 ||
            (!Config->IsPlain && strcmp(Other->Key, Peer->Key) == 0))
            return true;
    }
    return false;
}

/* What is wrong with a peer whose settings were read; null: nothing. */
static const char *FaultOf(const SBN_Config_t *Config, const SBN_Peer_t *Peer)
{
    if (!Peer->Name[0])
        return "a peer without name";
    if (strncmp(Peer->Address, "tcp://", 6) != 0)
        return "a peer without address of tcp://";
    if (Config->IsPlain && !IsLoopback(Peer->Address))
        return "plain links are for addresses of loopback, tcp://127.0.0.1:PORT";
    if (!Config->IsPlain && !IsKey(Peer->Key))
        return "a peer without key of 40 characters";
    if (IsDoubled(Config, Peer))
        return "a name, address or key that another peer has";
    return NULL;
}

static bool ReadPeer(SBN_Config_t *Config, const config_setting_t *Group)
{
    SBN_Peer_t *Peer = &Config->Peer[Config->Peers];
    if (Config->Peers == SBN_MOST_PEERS)
        return BadSetting(Config, Group, "more than 8 peers");
    if (!config_setting_is_group(Group))
        return BadSetting(Config, Group, "no group of settings");
    for (int i = 0; i < config_setting_length(Group); i++)
        if (!ReadSetting(Config, config_setting_get_elem(Group, (unsigned)i), Peer))
            return false;
    const char *Fault = FaultOf(Config, Peer);
    if (Fault)
        return BadSetting(Config, Group, Fault);
    Config->Peers++;
    return true;
}

/* ---- The file ---- */

static bool ReadPeers(SBN_Config_t *Config, const config_setting_t *Peers)
{
    if (!config_setting_is_list(Peers) || config_setting_length(Peers) < 2)
        return BadSetting(Config, Peers, "no list of two or more peers:");
    for (int i = 0; i < config_setting_length(Peers); i++)
        if (!ReadPeer(Config, config_setting_get_elem(Peers, (unsigned)i)))
            return false;
    return true;
}

/* Reads what all links share. Peers are read last, as they depend on it. */
static bool ReadShared(SBN_Config_t *Config, const config_setting_t *Root)
{
    const config_setting_t *Peers = NULL;
    for (int i = 0; i < config_setting_length(Root); i++) {
        const config_setting_t *Setting = config_setting_get_elem(Root, (unsigned)i);
        const char *Name = config_setting_name(Setting);
        int Type = config_setting_type(Setting), Value = config_setting_get_int(Setting);
        if (strcmp(Name, "peers") == 0)
            Peers = Setting;
        else if (strcmp(Name, "plain") == 0 && Type == CONFIG_TYPE_BOOL)
            Config->IsPlain = config_setting_get_bool(Setting);
        else if (strcmp(Name, "age") == 0 && Type == CONFIG_TYPE_INT && 0 <= Value &&
                 Value <= SBN_MOST_AGE)
            Config->Age = (uint32)Value;
        else
            return BadSetting(Config, Setting, "no such setting, or no such value:");
    }
    return Peers ? ReadPeers(Config, Peers) : BadSetting(Config, Root, "no peers");
}

static bool ReadFile(SBN_Config_t *Config, const char *File)
{
    config_t Text;
    config_init(&Text);
    bool IsGood = config_read_file(&Text, File);
    if (IsGood)
        IsGood = ReadShared(Config, config_root_setting(&Text));
    else if (config_error_type(&Text) == CONFIG_ERR_PARSE)
        Bad(Config, File, (unsigned)config_error_line(&Text), config_error_text(&Text), NULL);
    else
        Bad(Config, File, 0, strerror(errno), NULL);
    config_destroy(&Text);
    return IsGood;
}

/* ---- The secret key ---- */

/* Reads a file of one key, which nobody but its owner may open. Answers what is wrong, or null. */
static const char *ReadSecret(const char *File, char *Secret)
{
    struct stat Stat;
    char Text[SBN_KEY_TEXT + 1] = "";
    int At = open(File, O_RDONLY | O_NONBLOCK | O_CLOEXEC);
    if (At < 0)
        return strerror(errno);
    bool IsFile = fstat(At, &Stat) == 0 && S_ISREG(Stat.st_mode);
    ssize_t Length = IsFile ? read(At, Text, sizeof(Text) - 1) : -1;
    close(At);
    if (!IsFile || (Stat.st_mode & 077) != 0)
        return "no file, or others may open it (chmod 600)";
    if (Length == SBN_KEY_TEXT && Text[SBN_KEY_TEXT - 1] == '\n')
        Text[SBN_KEY_TEXT - 1] = '\0';
    if (!IsKey(Text))
        return "no key of 40 characters";
    memcpy(Secret, Text, SBN_KEY_TEXT);
    return NULL;
}

static bool TakeSecret(SBN_Config_t *Config, const char *File)
{
    char Public[SBN_KEY_TEXT];
    if (!File)
        return Bad(Config, Config->Peer[Config->Self].Name, 0, "no file of its secret key", NULL);
    const char *Fault = ReadSecret(File, Config->Secret);
    if (Fault)
        return Bad(Config, File, 0, Fault, NULL);
    if (zmq_curve_public(Public, Config->Secret) != 0 ||
        strcmp(Public, Config->Peer[Config->Self].Key) != 0)
        return Bad(Config, File, 0, "not the secret key to the public one of",
                   Config->Peer[Config->Self].Name);
    return true;
}

bool SBN_ReadConfig(SBN_Config_t *Config, const char *File, const char *Name,
                    const char *SecretFile)
{
    memset(Config, 0, sizeof(*Config));
    Config->Age = SBN_USUAL_AGE;
    if (!ReadFile(Config, File))
        return false;
    while (Config->Self < Config->Peers && strcmp(Config->Peer[Config->Self].Name, Name) != 0)
        Config->Self++;
    if (Config->Self == Config->Peers)
        return Bad(Config, File, 0, "no peer", Name);
    return Config->IsPlain || TakeSecret(Config, SecretFile);
}

bool SBN_MaySend(const SBN_Peer_t *From, const SBN_Peer_t *To, CFE_SB_MsgId_t Id)
{
    return (HasId(&From->Publishes, Id) || HasId(&From->Commands, Id)) && HasId(&To->Receives, Id);
}
