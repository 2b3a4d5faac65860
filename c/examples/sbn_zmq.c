/*
 * sbn_zmq.c: each process listens by one ROUTER socket, and connects a DEALER socket to each other
 * process, by which it receives what that one sends. So who speaks is known by the key that the
 * DEALER demands of the other end, and who listens by the key that the ROUTER was shown (ZAP).
 *
 * The application's own task has the ROUTER socket: it takes hellos, which are signs of life of
 * those who listen, and sends frames (sbn_frame.h). A child task has the rest. A socket is used by
 * one task alone.
 *
 * Nothing goes back to where it came from, or on to others: the pipe that is sent from ignores what
 * this application itself sends.
 */
#include "sbn_zmq.h"
#include "sbn_frame.h"

#include <stdio.h>
#include <string.h>
#include <time.h>
#include <zmq.h>

#define PIPE_DEPTH     256
#define LIFE_MS        200  /* a sign of life so often */
#define LOST_MS        1500 /* without one for so long a peer is lost */
#define SILENT_MS      4000 /* then its socket is opened anew */
#define TELL_MS        1000 /* counts are told so often */
#define HANDSHAKE_MS   2000
#define QUEUE          256  /* frames that wait for a peer, or from it */
#define HELLOS         16   /* hellos that wait from a connection */
#define LARGEST_HELLO  1024 /* bytes; CURVE's own messages fit too */
#define CURVE_BYTES    64   /* that CURVE adds to a frame, at most */
#define MOST_AT_A_TIME 64   /* messages of a socket, before the others' turn */
#define MOST_ROUTE     32
#define KEY_BYTES      32
#define ZAP_ADDRESS    "inproc://zeromq.zap.01"

/* What a monitor hears of; that a key isn't in the file, AnswerZap says already. */
#define NO_LINK                                                                   \
    (ZMQ_EVENT_HANDSHAKE_FAILED_NO_DETAIL | ZMQ_EVENT_HANDSHAKE_FAILED_PROTOCOL | \
     ZMQ_EVENT_DISCONNECTED)
#define NOT_LET_IN ZMQ_EVENT_HANDSHAKE_FAILED_AUTH

SBN_Config_t SBN_Config;

/* What a task keeps of a peer. */
typedef struct {
    /* The child task. */
    void *Dealer, *Monitor;
    int64_t Opened; /* when Dealer was, in ms */
    SBN_Stream_t Stream;
    /* The application's own task. */
    char Route[MOST_ROUTE]; /* the connection by which it listens */
    size_t RouteBytes;      /* 0: it doesn't listen */
    int64_t Hello;          /* when it said hello */
    uint64_t Number;        /* of the last message to it */
    /* Under the mutex. */
    int64_t Seen; /* when a frame came from it */
} Peer_t;

static struct {
    Peer_t Peer[SBN_MOST_PEERS];
    void *Context, *Router, *RouterMonitor, *Zap;
    CFE_SB_PipeId_t Pipe;
    uint64_t Start;  /* in ms since 1970 */
    uint32 Monitors; /* how many were opened */
    osal_id_t Mutex; /* round Hk, Seen and Stranger */
    SBN_HkTlm_t Hk;
    char Stranger[64]; /* the address of the last one */
    SBN_HkTlm_t Told;  /* what the child task has told of Hk */
} Sbn;

static uint64_t TimeOf(clockid_t Clock)
{
    struct timespec Time;
    clock_gettime(Clock, &Time);
    return (uint64_t)Time.tv_sec * 1000 + (uint64_t)Time.tv_nsec / 1000000;
}

static int64_t Now(void)
{
    return (int64_t)TimeOf(CLOCK_MONOTONIC);
}

static const SBN_Peer_t *Self(void)
{
    return &SBN_Config.Peer[SBN_Config.Self];
}

/* ---- Counts ---- */

/* The counts of a peer, which stand in housekeeping without ourselves. */
static SBN_Link_t *LinkOf(uint32 Peer)
{
    return &Sbn.Hk.Link[Peer < SBN_Config.Self ? Peer : Peer - 1];
}

static void AddTo(uint32 *Count, uint64_t Number)
{
    OS_MutSemTake(Sbn.Mutex);
    *Count = Number > UINT32_MAX - *Count ? UINT32_MAX : *Count + (uint32)Number;
    OS_MutSemGive(Sbn.Mutex);
}

static void NoteStranger(const char *From)
{
    AddTo(&Sbn.Hk.Strangers, 1);
    OS_MutSemTake(Sbn.Mutex);
    snprintf(Sbn.Stranger, sizeof(Sbn.Stranger), "%s", From);
    OS_MutSemGive(Sbn.Mutex);
}

static void NoteLife(uint32 Peer)
{
    OS_MutSemTake(Sbn.Mutex);
    SBN_Link_t *Link = LinkOf(Peer);
    Sbn.Peer[Peer].Seen = Now();
    bool IsNew = !Link->IsThere;
    Link->Found += IsNew;
    Link->IsThere = true;
    OS_MutSemGive(Sbn.Mutex);
    if (IsNew)
        CFE_EVS_SendEvent(SBN_PEER_INF_EID, CFE_EVS_EventType_INFORMATION, "SBN: %s is there",
                          SBN_Config.Peer[Peer].Name);
}

static void NoteLoss(uint32 Peer)
{
    OS_MutSemTake(Sbn.Mutex);
    SBN_Link_t *Link = LinkOf(Peer);
    bool IsLost = Link->IsThere && Now() - Sbn.Peer[Peer].Seen > LOST_MS;
    Link->Lost += IsLost;
    Link->IsThere = Link->IsThere && !IsLost;
    OS_MutSemGive(Sbn.Mutex);
    if (IsLost)
        CFE_EVS_SendEvent(SBN_PEER_LOST_EID, CFE_EVS_EventType_ERROR, "SBN: %s is lost",
                          SBN_Config.Peer[Peer].Name);
}

/*
 * Says what went wrong on a link since it was said last. Messages that weren't sent are said while
 * the peer is there; otherwise it was said that it is lost.
 */
static void TellLink(const SBN_Link_t *Link, const SBN_Link_t *Told)
{
    const SBN_Faults_t *Faults = &Link->Faults;
    bool IsFull = Link->Unsent != Told->Unsent && Link->IsThere && Told->IsThere;
    if (!IsFull && memcmp(Faults, &Told->Faults, sizeof(*Faults)) == 0)
        return;
    CFE_EVS_SendEvent(SBN_COUNT_ERR_EID, CFE_EVS_EventType_ERROR,
                      "SBN: %s: refused %u stale %u replayed %u missed %u unsent %u doubled %u "
                      "failed %u ended %u",
                      Link->Name, Faults->Refused, Faults->Stale, Faults->Replayed, Faults->Missed,
                      Link->Unsent, Faults->Doubled, Faults->Failed, Faults->Ended);
}

static void TellCounts(void)
{
    char Stranger[sizeof(Sbn.Stranger)];
    OS_MutSemTake(Sbn.Mutex);
    SBN_HkTlm_t Hk = Sbn.Hk;
    memcpy(Stranger, Sbn.Stranger, sizeof(Stranger));
    OS_MutSemGive(Sbn.Mutex);
    for (uint32 i = 0; i < Hk.Links; i++)
        TellLink(&Hk.Link[i], &Sbn.Told.Link[i]);
    if (Hk.Strangers != Sbn.Told.Strangers || Hk.Ended != Sbn.Told.Ended)
        CFE_EVS_SendEvent(SBN_STRANGER_EID, CFE_EVS_EventType_ERROR,
                          "SBN: strangers refused %u, the last: %s; connections ended %u",
                          Hk.Strangers, Hk.Strangers ? Stranger : "none", Hk.Ended);
    Sbn.Told = Hk;
}

/* ---- Sockets ---- */

static bool SetNumber(void *Socket, int Option, int Value)
{
    return zmq_setsockopt(Socket, Option, &Value, sizeof(Value)) == 0;
}

/* Sets the limits that every socket has. */
static bool Limit(void *Socket, int64_t LargestIn, int QueueIn, int QueueOut)
{
    return zmq_setsockopt(Socket, ZMQ_MAXMSGSIZE, &LargestIn, sizeof(LargestIn)) == 0 &&
           SetNumber(Socket, ZMQ_RCVHWM, QueueIn) && SetNumber(Socket, ZMQ_SNDHWM, QueueOut) &&
           SetNumber(Socket, ZMQ_LINGER, 0) && SetNumber(Socket, ZMQ_HANDSHAKE_IVL, HANDSHAKE_MS) &&
           SetNumber(Socket, ZMQ_HEARTBEAT_IVL, LIFE_MS) &&
           SetNumber(Socket, ZMQ_HEARTBEAT_TIMEOUT, LOST_MS) &&
           SetNumber(Socket, ZMQ_HEARTBEAT_TTL, LOST_MS);
}

/* Demands CURVE of who connects; ZeroMQ asks AnswerZap who may. */
static bool GuardRouter(void *Socket)
{
    return SBN_Config.IsPlain ||
           (zmq_setsockopt(Socket, ZMQ_ZAP_DOMAIN, "sbn", 3) == 0 &&
            SetNumber(Socket, ZMQ_CURVE_SERVER, 1) &&
            zmq_setsockopt(Socket, ZMQ_CURVE_SECRETKEY, SBN_Config.Secret, SBN_KEY_TEXT) == 0);
}

/* Demands CURVE with this peer's key of the other end. */
static bool GuardDealer(void *Socket, const SBN_Peer_t *Peer)
{
    return SBN_Config.IsPlain ||
           (zmq_setsockopt(Socket, ZMQ_CURVE_SERVERKEY, Peer->Key, SBN_KEY_TEXT) == 0 &&
            zmq_setsockopt(Socket, ZMQ_CURVE_PUBLICKEY, Self()->Key, SBN_KEY_TEXT) == 0 &&
            zmq_setsockopt(Socket, ZMQ_CURVE_SECRETKEY, SBN_Config.Secret, SBN_KEY_TEXT) == 0);
}

/* A socket that hears of handshakes of another that fail. */
static void *OpenMonitor(void *Socket, int Events)
{
    char Address[32];
    void *Monitor = zmq_socket(Sbn.Context, ZMQ_PAIR);
    /* An address is free again only some time after its socket was closed. */
    snprintf(Address, sizeof(Address), "inproc://monitor-%u", Sbn.Monitors++);
    if (Monitor && zmq_socket_monitor(Socket, Address, Events) == 0 &&
        SetNumber(Monitor, ZMQ_LINGER, 0) && zmq_connect(Monitor, Address) == 0)
        return Monitor;
    if (Monitor)
        zmq_close(Monitor);
    return NULL;
}

static void TellNoSocket(const char *Address)
{
    CFE_EVS_SendEvent(SBN_SOCKET_ERR_EID, CFE_EVS_EventType_ERROR, "SBN: no socket for %s: %s",
                      Address, zmq_strerror(zmq_errno()));
}

/* A socket that isn't guarded and limited as asked isn't opened. */
static bool OpenRouter(void)
{
    Sbn.Context = zmq_ctx_new();
    Sbn.Zap = Sbn.Context ? zmq_socket(Sbn.Context, ZMQ_REP) : NULL;
    Sbn.Router = Sbn.Zap ? zmq_socket(Sbn.Context, ZMQ_ROUTER) : NULL;
    if (Sbn.Router && SetNumber(Sbn.Zap, ZMQ_LINGER, 0) && zmq_bind(Sbn.Zap, ZAP_ADDRESS) == 0 &&
        Limit(Sbn.Router, LARGEST_HELLO, HELLOS, QUEUE) && GuardRouter(Sbn.Router) &&
        SetNumber(Sbn.Router, ZMQ_ROUTER_MANDATORY, 1) &&
        (Sbn.RouterMonitor = OpenMonitor(Sbn.Router, NO_LINK)) &&
        zmq_bind(Sbn.Router, Self()->Address) == 0)
        return true;
    TellNoSocket(Self()->Address);
    return false;
}

static void Close(void **Socket)
{
    if (*Socket)
        zmq_close(*Socket);
    *Socket = NULL;
}

static void CloseDealer(Peer_t *Peer)
{
    if (Peer->Dealer)
        zmq_socket_monitor(Peer->Dealer, NULL, 0);
    Close(&Peer->Monitor);
    Close(&Peer->Dealer);
}

/* Opens the socket by which a peer is heard. If there is none, it is tried again later. */
static void OpenDealer(uint32 Place)
{
    const SBN_Peer_t *Of = &SBN_Config.Peer[Place];
    Peer_t *Peer = &Sbn.Peer[Place];
    Peer->Opened = Now();
    Peer->Dealer = zmq_socket(Sbn.Context, ZMQ_DEALER);
    if (Peer->Dealer && Limit(Peer->Dealer, SBN_LARGEST_FRAME + CURVE_BYTES, QUEUE, HELLOS) &&
        GuardDealer(Peer->Dealer, Of) &&
        (Peer->Monitor = OpenMonitor(Peer->Dealer, NO_LINK | NOT_LET_IN)) &&
        zmq_connect(Peer->Dealer, Of->Address) == 0)
        return;
    TellNoSocket(Of->Address);
    CloseDealer(Peer);
}

/* ---- Who may listen ---- */

/* The place of the peer that has this key; Peers: none. */
static uint32 PeerOfKey(const void *Key)
{
    uint8_t Bytes[KEY_BYTES];
    uint32 i = 0;
    while (i < SBN_Config.Peers && (!zmq_z85_decode(Bytes, SBN_Config.Peer[i].Key) ||
                                    memcmp(Bytes, Key, sizeof(Bytes)) != 0))
        i++;
    return i == SBN_Config.Self ? SBN_Config.Peers : i;
}

static uint32 PeerOfName(const char *Name, size_t Length)
{
    uint32 i = 0;
    while (i < SBN_Config.Peers && (strlen(SBN_Config.Peer[i].Name) != Length ||
                                    memcmp(SBN_Config.Peer[i].Name, Name, Length) != 0))
        i++;
    return i == SBN_Config.Self ? SBN_Config.Peers : i;
}

/* A question by ZAP (RFC 27) has these frames: */
enum { ZAP_VERSION, ZAP_REQUEST, ZAP_DOMAIN, ZAP_FROM, ZAP_IDENTITY, ZAP_MECHANISM, ZAP_KEY };
enum { ZAP_FRAMES = ZAP_KEY + 1, ZAP_MOST = 256 };

typedef struct {
    char Frame[ZAP_FRAMES + 1][ZAP_MOST + 1]; /* in the last place what isn't of a question */
    size_t Length[ZAP_FRAMES + 1];
} Question_t;

/* Reads a question; whether one is there. */
static bool ReadQuestion(Question_t *Question)
{
    int More = 1;
    size_t Size = sizeof(More);
    memset(Question, 0, sizeof(*Question));
    for (size_t i = 0; More; i++) {
        size_t At = i < ZAP_FRAMES ? i : ZAP_FRAMES;
        int Length = zmq_recv(Sbn.Zap, Question->Frame[At], ZAP_MOST, ZMQ_DONTWAIT);
        if (Length < 0 || zmq_getsockopt(Sbn.Zap, ZMQ_RCVMORE, &More, &Size) != 0)
            return false;
        Question->Length[At] = Length < ZAP_MOST ? (size_t)Length : ZAP_MOST;
    }
    return true;
}

/* The place of the peer whose key a question shows; Peers: none. */
static uint32 PeerOfQuestion(const Question_t *Question)
{
    return Question->Length[ZAP_MECHANISM] == 5 &&
                   memcmp(Question->Frame[ZAP_MECHANISM], "CURVE", 5) == 0 &&
                   Question->Length[ZAP_KEY] == KEY_BYTES
               ? PeerOfKey(Question->Frame[ZAP_KEY])
               : SBN_Config.Peers;
}

/*
 * Answers ZeroMQ whether a key may listen; the name of who has it goes with each of its hellos.
 * Whether there was a question.
 */
static bool AnswerZap(void)
{
    Question_t Question;
    if (!ReadQuestion(&Question))
        return false;
    uint32 Peer = PeerOfQuestion(&Question);
    bool IsKnown = Peer < SBN_Config.Peers;
    const char *Name = IsKnown ? SBN_Config.Peer[Peer].Name : "";
    if (!IsKnown)
        NoteStranger(Question.Frame[ZAP_FROM]);
    return zmq_send(Sbn.Zap, "1.0", 3, ZMQ_SNDMORE) >= 0 &&
           zmq_send(Sbn.Zap, Question.Frame[ZAP_REQUEST], Question.Length[ZAP_REQUEST],
                    ZMQ_SNDMORE) >= 0 &&
           zmq_send(Sbn.Zap, IsKnown ? "200" : "400", 3, ZMQ_SNDMORE) >= 0 &&
           zmq_send(Sbn.Zap, "", 0, ZMQ_SNDMORE) >= 0 &&
           zmq_send(Sbn.Zap, Name, strlen(Name), ZMQ_SNDMORE) >= 0 &&
           zmq_send(Sbn.Zap, "", 0, 0) >= 0;
}

/* Counts the next event of a monitor; whether there was one. Failed is null for the ROUTER's. */
static bool NoteEvent(void *Monitor, uint32 *Failed, uint32 *Ended)
{
    uint8_t Event[6], Address[ZAP_MOST];
    uint16_t Number;
    if (zmq_recv(Monitor, Event, sizeof(Event), ZMQ_DONTWAIT) != sizeof(Event) ||
        zmq_recv(Monitor, Address, sizeof(Address), ZMQ_DONTWAIT) < 0)
        return false;
    memcpy(&Number, Event, sizeof(Number));
    if (Number == ZMQ_EVENT_DISCONNECTED)
        AddTo(Ended, 1);
    else if (Failed)
        AddTo(Failed, 1);
    else
        NoteStranger("a handshake that failed");
    return true;
}

/* ---- From the others: the child task ---- */

/* Sends on what a peer sent, if it may send it and we may receive it. */
static bool SendOn(uint32 Peer, const void *Packet)
{
    CFE_SB_MsgId_t Id = CFE_SB_INVALID_MSG_ID;
    CFE_MSG_GetMsgId(Packet, &Id);
    return SBN_MaySend(&SBN_Config.Peer[Peer], Self(), Id) &&
           CFE_SB_TransmitMsg(Packet, false) == CFE_SUCCESS;
}

static void Receive(uint32 Peer, const uint8_t *Frame, size_t Length)
{
    SBN_Link_t *Link = LinkOf(Peer);
    uint64_t Missed;
    SBN_Kind_t Kind = SBN_Judge(&Sbn.Peer[Peer].Stream, Frame, Length, TimeOf(CLOCK_REALTIME),
                                SBN_Config.Age, &Missed);
    if (Missed > 0)
        AddTo(&Link->Faults.Missed, Missed);
    if (Kind == SBN_FRAME_LIFE || Kind == SBN_FRAME_PACKET)
        NoteLife(Peer);
    if (Kind == SBN_FRAME_STALE)
        AddTo(&Link->Faults.Stale, 1);
    else if (Kind == SBN_FRAME_REPLAYED)
        AddTo(&Link->Faults.Replayed, 1);
    else if (Kind == SBN_FRAME_PACKET && SendOn(Peer, Frame + SBN_HEADER_BYTES))
        AddTo(&Link->Received, 1);
    else if (Kind != SBN_FRAME_LIFE)
        AddTo(&Link->Faults.Refused, 1);
}

/* Takes a message of a peer, which is one frame; whether one was there. */
static bool ReceiveMessage(uint32 Peer)
{
    zmq_msg_t Frame;
    zmq_msg_init(&Frame);
    bool IsThere = zmq_msg_recv(&Frame, Sbn.Peer[Peer].Dealer, ZMQ_DONTWAIT) >= 0;
    bool IsOne = IsThere && !zmq_msg_more(&Frame);
    if (IsOne)
        Receive(Peer, zmq_msg_data(&Frame), zmq_msg_size(&Frame));
    else if (IsThere)
        AddTo(&LinkOf(Peer)->Faults.Refused, 1);
    /* The rest of a message of several frames, which is all here. */
    while (IsThere && zmq_msg_more(&Frame))
        IsThere = zmq_msg_recv(&Frame, Sbn.Peer[Peer].Dealer, ZMQ_DONTWAIT) >= 0;
    zmq_msg_close(&Frame);
    return IsThere;
}

/* A message that doesn't end leaves a peer silent; closing its socket lets go what came of it. */
static void ReopenIfSilent(uint32 Place)
{
    Peer_t *Peer = &Sbn.Peer[Place];
    OS_MutSemTake(Sbn.Mutex);
    int64_t Seen = Peer->Seen;
    OS_MutSemGive(Sbn.Mutex);
    if (Now() - (Seen > Peer->Opened ? Seen : Peer->Opened) <= SILENT_MS)
        return;
    CloseDealer(Peer);
    OpenDealer(Place);
}

static void ServePeer(uint32 Place)
{
    Peer_t *Peer = &Sbn.Peer[Place];
    for (int i = 0; Peer->Dealer && i < MOST_AT_A_TIME && ReceiveMessage(Place); i++)
        ;
    SBN_Faults_t *Faults = &LinkOf(Place)->Faults;
    for (int i = 0; Peer->Monitor && i < MOST_AT_A_TIME &&
                    NoteEvent(Peer->Monitor, &Faults->Failed, &Faults->Ended);
         i++)
        ;
}

static void ServeStrangers(void)
{
    for (int i = 0; i < MOST_AT_A_TIME && AnswerZap(); i++)
        ;
    for (int i = 0; i < MOST_AT_A_TIME && NoteEvent(Sbn.RouterMonitor, NULL, &Sbn.Hk.Ended); i++)
        ;
}

static int ListSockets(zmq_pollitem_t *Item)
{
    int Count = 0;
    Item[Count++] = (zmq_pollitem_t){Sbn.Zap, 0, ZMQ_POLLIN, 0};
    Item[Count++] = (zmq_pollitem_t){Sbn.RouterMonitor, 0, ZMQ_POLLIN, 0};
    for (uint32 i = 0; i < SBN_Config.Peers; i++)
        if (Sbn.Peer[i].Dealer)
            Item[Count++] = (zmq_pollitem_t){Sbn.Peer[i].Dealer, 0, ZMQ_POLLIN, 0};
    return Count;
}

/* Every LIFE_MS: says hello to all who can hear it. */
static void Beat(void)
{
    const char *Name = Self()->Name;
    for (uint32 i = 0; i < SBN_Config.Peers; i++) {
        if (i == SBN_Config.Self)
            continue;
        if (Sbn.Peer[i].Dealer)
            zmq_send(Sbn.Peer[i].Dealer, Name, strlen(Name), ZMQ_DONTWAIT);
        NoteLoss(i);
        ReopenIfSilent(i);
    }
}

static void ReceiveAll(void)
{
    uint32 RunStatus = CFE_ES_RunStatus_APP_RUN;
    zmq_pollitem_t Item[SBN_MOST_PEERS + 2];
    int64_t Life = 0, Tell = 0;
    for (uint32 i = 0; i < SBN_Config.Peers; i++)
        if (i != SBN_Config.Self)
            OpenDealer(i);
    while (CFE_ES_RunLoop(&RunStatus)) {
        zmq_poll(Item, ListSockets(Item), LIFE_MS);
        ServeStrangers();
        for (uint32 i = 0; i < SBN_Config.Peers; i++)
            if (i != SBN_Config.Self)
                ServePeer(i);
        if (Now() - Life >= LIFE_MS) {
            Life = Now();
            Beat();
        }
        if (Now() - Tell >= TELL_MS) {
            Tell = Now();
            TellCounts();
        }
    }
    for (uint32 i = 0; i < SBN_Config.Peers; i++)
        CloseDealer(&Sbn.Peer[i]);
    Close(&Sbn.RouterMonitor);
    Close(&Sbn.Zap);
}

/* ---- To the others: the application's own task ---- */

/* Takes the connection of a peer that said hello, unless it has another that lives. */
static void TakeRoute(uint32 Place, const void *Route, size_t Bytes)
{
    Peer_t *Peer = &Sbn.Peer[Place];
    bool IsSame = Bytes == Peer->RouteBytes && memcmp(Route, Peer->Route, Bytes) == 0;
    if (!IsSame && Peer->RouteBytes > 0 && Now() - Peer->Hello <= LOST_MS) {
        AddTo(&LinkOf(Place)->Faults.Doubled, 1);
        return;
    }
    memcpy(Peer->Route, Route, Bytes);
    Peer->RouteBytes = Bytes;
    Peer->Hello = Now();
}

/* A hello is the name of who says it. Where there are keys, it must be the name of its key. */
static void TakeHello(zmq_msg_t *Route, zmq_msg_t *Hello)
{
    const char *User = SBN_Config.IsPlain ? NULL : zmq_msg_gets(Hello, "User-Id");
    uint32 Said = PeerOfName(zmq_msg_data(Hello), zmq_msg_size(Hello));
    uint32 Peer = User ? PeerOfName(User, strlen(User)) : Said;
    if (Peer == SBN_Config.Peers || (!User && !SBN_Config.IsPlain))
        NoteStranger("a name that isn't in the file");
    else if (Said != Peer || zmq_msg_more(Hello) || zmq_msg_size(Route) > MOST_ROUTE)
        AddTo(&LinkOf(Peer)->Faults.Refused, 1);
    else
        TakeRoute(Peer, zmq_msg_data(Route), zmq_msg_size(Route));
}

/* Takes a message of who listens, which is two frames; whether one was there. */
static bool ReceiveHello(void)
{
    zmq_msg_t Route, Hello;
    zmq_msg_init(&Route);
    zmq_msg_init(&Hello);
    bool IsThere = zmq_msg_recv(&Route, Sbn.Router, ZMQ_DONTWAIT) >= 0;
    if (IsThere && zmq_msg_recv(&Hello, Sbn.Router, ZMQ_DONTWAIT) >= 0)
        TakeHello(&Route, &Hello);
    /* The rest of a message of several frames, which is all here. */
    while (IsThere && zmq_msg_more(&Hello))
        IsThere = zmq_msg_recv(&Hello, Sbn.Router, ZMQ_DONTWAIT) >= 0;
    zmq_msg_close(&Route);
    zmq_msg_close(&Hello);
    return IsThere;
}

/* Sends a frame by a peer's connection; without one, or with a full queue, it isn't sent. */
static bool SendFrame(Peer_t *Peer, const void *Packet, size_t Length)
{
    SBN_Header_t Header = {Peer->Number, Sbn.Start, TimeOf(CLOCK_REALTIME)};
    zmq_msg_t Frame;
    if (Peer->RouteBytes == 0 || zmq_msg_init_size(&Frame, SBN_HEADER_BYTES + Length) != 0)
        return false;
    SBN_WriteHeader(zmq_msg_data(&Frame), &Header);
    memcpy((uint8_t *)zmq_msg_data(&Frame) + SBN_HEADER_BYTES, Packet, Length);
    if (zmq_send(Sbn.Router, Peer->Route, Peer->RouteBytes, ZMQ_SNDMORE | ZMQ_DONTWAIT) >= 0 &&
        zmq_msg_send(&Frame, Sbn.Router, ZMQ_DONTWAIT) >= 0)
        return true;
    if (zmq_errno() == EHOSTUNREACH)
        Peer->RouteBytes = 0;
    zmq_msg_close(&Frame);
    return false;
}

static void Publish(const CFE_SB_Buffer_t *Buffer, CFE_SB_MsgId_t Id, size_t Length)
{
    for (uint32 i = 0; i < SBN_Config.Peers; i++) {
        if (i == SBN_Config.Self || !SBN_MaySend(Self(), &SBN_Config.Peer[i], Id))
            continue;
        Sbn.Peer[i].Number++;
        bool IsSent = SendFrame(&Sbn.Peer[i], Buffer, Length);
        AddTo(IsSent ? &LinkOf(i)->Sent : &LinkOf(i)->Unsent, 1);
    }
}

static void ShowLife(void)
{
    for (uint32 i = 0; i < SBN_Config.Peers; i++)
        SendFrame(&Sbn.Peer[i], "", 0);
}

static void SendHousekeeping(void)
{
    OS_MutSemTake(Sbn.Mutex);
    SBN_HkTlm_t Hk = Sbn.Hk;
    OS_MutSemGive(Sbn.Mutex);
    CFE_SB_TimeStampMsg(CFE_MSG_PTR(Hk.TelemetryHeader));
    CFE_SB_TransmitMsg(CFE_MSG_PTR(Hk.TelemetryHeader), true);
}

static void Handle(const CFE_SB_Buffer_t *Buffer)
{
    CFE_SB_MsgId_t Id = CFE_SB_INVALID_MSG_ID;
    CFE_MSG_Size_t Size = 0;
    CFE_MSG_GetMsgId(&Buffer->Msg, &Id);
    CFE_MSG_GetSize(&Buffer->Msg, &Size);
    if (CFE_SB_MsgIdToValue(Id) == SBN_SEND_HK_MID)
        SendHousekeeping();
    else
        Publish(Buffer, Id, Size);
}

/* ---- The application ---- */

static void SetUpHousekeeping(void)
{
    CFE_MSG_Init(CFE_MSG_PTR(Sbn.Hk.TelemetryHeader), CFE_SB_ValueToMsgId(SBN_HK_TLM_MID),
                 sizeof(Sbn.Hk));
    Sbn.Hk.Links = SBN_Config.Peers - 1;
    for (uint32 i = 0; i < SBN_Config.Peers; i++)
        if (i != SBN_Config.Self)
            strcpy(LinkOf(i)->Name, SBN_Config.Peer[i].Name);
    Sbn.Told = Sbn.Hk;
}

static CFE_Status_t SubscribeAll(const SBN_Ids_t *Ids)
{
    CFE_Status_t Status = CFE_SUCCESS;
    for (uint32 i = 0; Status == CFE_SUCCESS && i < Ids->Count; i++)
        Status = CFE_SB_SubscribeEx(Ids->Id[i], Sbn.Pipe, CFE_SB_DEFAULT_QOS, PIPE_DEPTH);
    return Status;
}

static CFE_Status_t SetUpPipe(void)
{
    CFE_Status_t Status = CFE_SB_CreatePipe(&Sbn.Pipe, PIPE_DEPTH, "SBN_PIPE");
    if (Status == CFE_SUCCESS)
        Status = CFE_SB_SetPipeOpts(Sbn.Pipe, CFE_SB_PIPEOPTS_IGNOREMINE);
    if (Status == CFE_SUCCESS)
        Status = CFE_SB_Subscribe(CFE_SB_ValueToMsgId(SBN_SEND_HK_MID), Sbn.Pipe);
    if (Status == CFE_SUCCESS)
        Status = SubscribeAll(&Self()->Publishes);
    if (Status == CFE_SUCCESS)
        Status = SubscribeAll(&Self()->Commands);
    return Status;
}

static CFE_Status_t Init(void)
{
    CFE_ES_TaskId_t Task;
    CFE_Status_t Status = CFE_EVS_Register(NULL, 0, CFE_EVS_EventFilter_BINARY);
    SetUpHousekeeping();
    Sbn.Start = TimeOf(CLOCK_REALTIME);
    if (Status == CFE_SUCCESS)
        Status = SetUpPipe();
    if (Status == CFE_SUCCESS &&
        (OS_MutSemCreate(&Sbn.Mutex, "SBN_MUTEX", 0) != OS_SUCCESS || !OpenRouter()))
        Status = CFE_ES_BAD_ARGUMENT;
    if (Status == CFE_SUCCESS)
        Status = CFE_ES_CreateChildTask(&Task, "SBN_RECEIVER", ReceiveAll,
                                        CFE_ES_TASK_STACK_ALLOCATE, 65536, 50, 0);
    if (Status == CFE_SUCCESS)
        CFE_EVS_SendEvent(SBN_STARTUP_INF_EID, CFE_EVS_EventType_INFORMATION,
                          "SBN: %s listens at %s, %s", Self()->Name, Self()->Address,
                          SBN_Config.IsPlain ? "plain" : "by CURVE");
    return Status;
}

void SBN_Main(void)
{
    CFE_SB_Buffer_t *Buffer;
    uint32 RunStatus = CFE_ES_RunStatus_APP_RUN;
    int64_t Life = 0;
    if (Init() != CFE_SUCCESS)
        RunStatus = CFE_ES_RunStatus_APP_ERROR;
    while (CFE_ES_RunLoop(&RunStatus)) {
        if (CFE_SB_ReceiveBuffer(&Buffer, Sbn.Pipe, LIFE_MS) == CFE_SUCCESS)
            Handle(Buffer);
        if (Now() - Life >= LIFE_MS) {
            Life = Now();
            for (int i = 0; i < MOST_AT_A_TIME && ReceiveHello(); i++)
                ;
            ShowLife();
        }
    }
    Close(&Sbn.Router);
    CFE_ES_ExitApp(RunStatus);
}
