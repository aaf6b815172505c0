%%% @doc The process of the SIP port. It admits messages, which `lobby_sip_reader' reads, and begins calls.
-module(lobby_sip).
-behaviour(gen_server).

-include_lib("p1_sip/include/esip.hrl").

-export([start_link/1, received/2, invite/2, send/2, answer/4, own/1, own_tag/1, tag/1, secret/0]).
-export([init/1, handle_call/3, handle_cast/2, handle_info/2]).
-export_type([config/0]).

-type config() :: #{sip := lobby_sip_message:peer(), users := lobby_auth:users(), digest := [lobby_auth:algorithm()],
                    callers := [lobby_auth:network()], proxies := [lobby_auth:network()],
                    tls := lobby_socket:tls() | none, _ => _}.
%% The maximum size of a datagram, in bytes. Longer messages need TCP (RFC 3261, section 18.1.1).
-define(MAX_DATAGRAM, 8192).
-record(state, {config :: config(), socket :: gen_udp:socket(), readers :: lobby_sip_reader:readers(),
                admission :: lobby_admission:admission(), auth :: lobby_auth:auth()}).

-spec start_link(config()) -> gen_server:start_ret().
start_link(Config) ->
    gen_server:start_link({local, ?MODULE}, ?MODULE, Config, []).

%% @doc Handles a message that arrived over a connection. The connection's process reads the message itself, so that a
%% phone can't send faster than it is served.
-spec received(binary(), lobby_sip_message:target()) -> ok.
received(Message, Source) ->
    case gen_server:call(?MODULE, {lets_in, Source}, infinity) of
        true -> lobby_sip_reader:read(Message, Source);
        false -> ok
    end.

%% @doc Begins a call for an initial INVITE, or returns the status and headers with which to reject it.
-spec invite(lobby_sip_message:message(), lobby_sip_message:target()) ->
          ok | {Status :: 300..699, Headers :: [{atom(), term()}]}.
invite(Request, Source) ->
    gen_server:call(?MODULE, {invite, Request, Source}, infinity).

%% @doc Sends a message. A message can be lost, for example while the port isn't open.
-spec send(lobby_sip_message:target(), lobby_sip_message:message()) -> ok.
send(Target, Message) ->
    ok = lobby_lease:hold(),
    case {lobby_sip_message:connection(Target), lobby_sip_message:peer(Target)} of
        {none, {Address, Port}} ->
            Socket = element(1, persistent_term:get(?MODULE)),
            _ = gen_udp:send(Socket, Address, Port, lobby_sip_message:encode(Message)),
            ok;
        {Connection, _} -> lobby_tcp:send(Connection, lobby_sip_message:encode(Message))
    end.

%% @doc Answers a request from this address, with our tag.
-spec answer(100..699, {Headers :: [{term(), term()}], Body :: binary()}, lobby_sip_message:message(),
             lobby_sip_message:target()) -> lobby_sip_message:message().
answer(Status, Content, Request, Source) ->
    Response = lobby_sip_message:response(Status, Request, own_tag(Request), Content),
    ok = send(lobby_sip_message:response_target(Request, Source), Response),
    Response.

%% @doc Returns the transport of a source, and the controller's own address for this transport.
-spec own(lobby_sip_message:target()) -> lobby_dialog:own().
own(Source) ->
    Transport = lobby_sip_message:transport(Source),
    {Transport, map_get(Transport, element(2, persistent_term:get(?MODULE)))}.

%% @doc Returns our tag in the dialog of a caller's request. A retransmitted INVITE gets the same tag.
-spec own_tag(lobby_sip_message:message()) -> binary().
own_tag(Request) ->
    tag(lobby_dialog:key(Request)).

%% @doc Returns our tag in the dialog with this Call-ID and caller's tag.
-spec tag({CallId :: binary(), Tag :: binary()}) -> binary().
tag(Key) ->
    Secret = element(3, persistent_term:get(?MODULE)),
    <<Tag:8/binary, _/binary>> = crypto:mac(hmac, sha256, Secret, term_to_binary(Key)),
    string:lowercase(binary:encode_hex(Tag)).

-spec init(config()) -> {ok, #state{}} | {stop, {cannot_bind, lobby_sip_message:peer(), inet:posix()}}.
init(Config = #{sip := Own, digest := Algorithms, tls := Tls}) ->
    case lobby_socket:opened(fun() -> open(Own) end) of
        {ok, Socket} ->
            Addresses = maps:from_list([{<<"UDP">>, Own}, {<<"TCP">>, Own} | [{<<"TLS">>, A} || #{sip := A} <- [Tls]]]),
            ok = persistent_term:put(?MODULE, {Socket, Addresses, secret()}),
            State = #state{config = Config, socket = Socket, readers = lobby_sip_reader:start(),
                           admission = lobby_admission:new(Config), auth = lobby_auth:new(Algorithms)},
            Watch = fun({Pid, Source}, Acc) -> watch(Pid, Source, <<>>, Acc) end,
            {ok, lists:foldl(Watch, State, lobby_call:sources())};
        {error, Reason} ->
            {stop, {cannot_bind, Own, Reason}}
    end.

open({Address, Port}) ->
    gen_udp:open(Port, [binary, {ip, Address}, {active, 100}, {recbuf, 4194304}, {buffer, 65536}]).

%% @doc Returns the secret for tags. It is stored, so that tags stay the same after a restart or a takeover.
-spec secret() -> binary().
secret() ->
    case lobby_store:get(lobby_settings, secret) of
        {ok, Secret} -> Secret;
        error ->
            Secret = crypto:strong_rand_bytes(32),
            ok = lobby_store:put(lobby_settings, secret, Secret),
            Secret
    end.

-spec handle_call({lets_in, Source} | {invite, lobby_sip_message:message(), Source}, gen_server:from(), #state{}) ->
          {reply, term(), #state{}} when Source :: lobby_sip_message:target().
handle_call({lets_in, Source}, _, State) ->
    {IsIn, State1} = lets_in(Source, State),
    {reply, IsIn, State1};
handle_call({invite, Request, Source}, _, State) ->
    case identified(Request, lobby_sip_message:address(Source), State) of
        {challenge, Headers} -> {reply, {401, Headers}, State};
        {ok, Name, State1} -> admitted(lobby_auth:asserted(Name, Request), Source, State1)
    end.

-spec handle_cast({started, pid(), lobby_sip_message:target()}, #state{}) -> {noreply, #state{}}.
handle_cast({started, Pid, Source}, State) ->
    {noreply, watch(Pid, Source, <<>>, State)}.

-spec handle_info(term(), #state{}) -> {noreply, #state{}}.
handle_info({udp, Socket, Address, Port, Datagram}, State = #state{socket = Socket, readers = Readers})
  when byte_size(Datagram) =< ?MAX_DATAGRAM ->
    Source = {Address, Port},
    {IsIn, State1} = lets_in(Source, State),
    _ = [ok = lobby_sip_reader:give(Datagram, Source, Readers) || IsIn],
    {noreply, State1};
handle_info({udp_passive, Socket}, State = #state{socket = Socket}) ->
    ok = inet:setopts(Socket, [{active, 100}]),
    {noreply, State};
handle_info({'DOWN', _, process, Pid, _}, State = #state{admission = Admission}) ->
    {noreply, State#state{admission = lobby_admission:left(Pid, Admission)}};
handle_info(_, State) ->
    {noreply, State}.

%% Returns whether to read a message from this source. Otherwise, the message is dropped unread.
lets_in(Source, State = #state{admission = Before}) ->
    Now = erlang:monotonic_time(millisecond),
    {IsIn, Admission} = lobby_admission:message(lobby_sip_message:address(Source), Now, Before),
    {IsIn, State#state{admission = Admission}}.

%% Identifies an INVITE's sender. An identity that a trusted proxy asserts needs no password.
identified(Request, Address, State = #state{config = #{users := Users, proxies := Proxies}, auth = Auth}) ->
    case {lobby_auth:is_in(Address, Proxies) andalso lobby_auth:identity(Request), map_size(Users)} of
        {Name, _} when is_binary(Name) -> {ok, Name, State};
        {_, 0} -> {ok, none, State};
        {_, _} -> case lobby_auth:check(Request, Address, Users, Auth) of
            {ok, Name, Auth1} -> {ok, Name, State#state{auth = Auth1}};
            Challenge -> Challenge
        end
    end.

admitted(Request = #sip{uri = #uri{user = Room}}, Source, State = #state{admission = Before}) ->
    Address = lobby_sip_message:address(Source),
    IsNew = not lobby_room:exists(Room),
    {Verdict, Admission} = lobby_admission:call(Address, {Room, IsNew}, erlang:monotonic_time(millisecond), Before),
    State1 = State#state{admission = Admission},
    case Verdict of
        ok ->
            {ok, Pid} = lobby_call:start(Room, Request, Source),
            ok = lobby_tcp:in_call(lobby_sip_message:connection(Source), Pid),
            {reply, ok, watch(Pid, Source, Room, State1)};
        too_many -> {reply, {486, []}, State1};
        _ -> {reply, {503, [{'retry-after', {10, []}}]}, State1}
    end.

watch(Pid, Source, Room, State = #state{admission = Admission}) ->
    _ = monitor(process, Pid),
    State#state{admission = lobby_admission:entered(Pid, lobby_sip_message:address(Source), Room, Admission)}.
