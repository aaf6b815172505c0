%%% @doc The process of a phone's TCP connection (RFC 3261, section 18.3), with or without TLS. Our requests in the
%%% phone's calls use the same connection.
-module(lobby_tcp).
-behaviour(gen_server).

-export([start_link/2, send/2, in_call/2, frame/1]).
-export([init/1, handle_call/3, handle_cast/2, handle_info/2]).

-define(MAX_MESSAGE, 65535).
-define(MAX_HEAD, 8192).
%% Timeouts in milliseconds: for the first message or the rest of a message, for an idle connection without a call, and
%% for an idle connection with a call. Phones keep a connection open with blank lines.
-define(MESSAGE, application:get_env(lobby, tcp_message, 10000)).
-define(IDLE, 300000).
-define(IN_CALL, 7200000).

-record(state, {socket :: lobby_socket:socket(), peer :: lobby_socket:address(), buffer = <<>> :: binary(),
                %% The timer that runs while a message is due.
                due :: reference() | none, calls = #{} :: #{pid() => uses}}).

%% @doc Starts the process of a connection. The caller must make it the socket's owner, and then send it `{ready, Tls}'.
-spec start_link(gen_tcp:socket(), lobby_socket:address()) -> gen_server:start_ret().
start_link(Socket, Peer) ->
    gen_server:start_link(?MODULE, {Socket, Peer}, []).

%% @doc Sends a message over a connection.
-spec send(pid(), binary()) -> ok.
send(Connection, Message) ->
    gen_server:cast(Connection, {send, Message}).

%% @doc Notes which connection a call uses, if any. Such a connection has a longer idle timeout.
-spec in_call(pid() | none, Call :: pid()) -> ok.
in_call(none, _) -> ok;
in_call(Connection, Call) -> gen_server:cast(Connection, {call, Call}).

%% @doc Splits off the first message in these bytes. Skips blank lines before the message, which phones send as
%% keep-alives.
-spec frame(binary()) -> {ok, Message :: binary(), Rest :: binary()} | more | {error, too_long}.
frame(Bytes) ->
    Buffer = begun(Bytes),
    case binary:match(Buffer, <<"\r\n\r\n">>, [{scope, {0, min(byte_size(Buffer), ?MAX_HEAD + 4)}}]) of
        {At, 4} -> message(At + 4 + content_length(binary:part(Buffer, 0, At)), Buffer);
        nomatch when byte_size(Buffer) >= ?MAX_HEAD + 4 -> {error, too_long};
        nomatch -> more
    end.

begun(<<"\r\n", Rest/binary>>) -> begun(Rest);
begun(Buffer) -> Buffer.

message(Length, _) when Length > ?MAX_MESSAGE -> {error, too_long};
message(Length, Buffer) when Length > byte_size(Buffer) -> more;
message(Length, Buffer) ->
    <<Message:Length/binary, Rest/binary>> = Buffer,
    {ok, Message, Rest}.

content_length(Head) ->
    case re:run(Head, "\r\n(?:Content-Length|l)[ \t]*:[ \t]*([0-9]{1,9})[ \t]*(?:\r\n|$)",
                [caseless, {capture, all_but_first, binary}]) of
        {match, [Length]} -> binary_to_integer(Length);
        nomatch -> 0
    end.

-spec init({gen_tcp:socket(), lobby_socket:address()}) -> {ok, #state{}}.
init({Socket, Peer}) ->
    {ok, #state{socket = Socket, peer = Peer, due = erlang:start_timer(?MESSAGE, self(), due)}}.

listen(State = #state{socket = Socket}) ->
    case lobby_socket:setopts(Socket, [{active, once}]) of
        ok -> waits(State);
        {error, _} -> {stop, normal, State}
    end.

waits(State = #state{calls = Calls}) when map_size(Calls) =:= 0 -> {noreply, State, ?IDLE};
waits(State) -> {noreply, State, ?IN_CALL}.

-spec handle_call(term(), gen_server:from(), #state{}) -> {reply, {error, unknown_call}, #state{}, timeout()}.
handle_call(_, _, State) ->
    {reply, {error, unknown_call}, State, ?IDLE}.

-spec handle_cast(term(), #state{}) -> {noreply, #state{}, timeout()} | {stop, normal, #state{}}.
handle_cast({send, Message}, State = #state{socket = Socket}) ->
    case lobby_socket:send(Socket, Message) of
        ok -> waits(State);
        {error, _} -> {stop, normal, State}
    end;
handle_cast({call, Call}, State = #state{calls = Calls}) ->
    _ = [monitor(process, Call) || not is_map_key(Call, Calls)],
    waits(State#state{calls = Calls#{Call => uses}}).

-spec handle_info(term(), #state{}) -> {noreply, #state{}, timeout()} | {stop, normal, #state{}}.
handle_info({ready, Tls}, State = #state{socket = Socket}) ->
    case lobby_socket:secured(Socket, Tls) of
        {ok, Secured} -> listen(State#state{socket = Secured});
        {error, _} -> {stop, normal, State}
    end;
handle_info({Kind, Socket, Bytes}, State = #state{socket = Socket, buffer = Buffer}) when Kind =:= tcp; Kind =:= ssl ->
    frames(State#state{buffer = <<Buffer/binary, Bytes/binary>>});
%% The connection was closed, or timed out.
handle_info(Message, State = #state{socket = Socket, due = Due})
  when element(2, Message) =:= Socket; element(2, Message) =:= Due; Message =:= timeout ->
    {stop, normal, State};
handle_info({'DOWN', _, process, Call, _}, State = #state{calls = Calls}) ->
    waits(State#state{calls = maps:remove(Call, Calls)});
handle_info(_, State) ->
    waits(State).

frames(State = #state{buffer = Bytes}) ->
    Buffer = begun(Bytes),
    case frame(Buffer) of
        {ok, Message, Rest} ->
            ok = lobby_sip:received(Message, target(State)),
            frames(due(State#state{buffer = Rest}));
        more when State#state.due =:= none, Buffer =/= <<>> ->
            listen(State#state{buffer = Buffer, due = erlang:start_timer(?MESSAGE, self(), due)});
        more -> listen(State#state{buffer = Buffer});
        {error, too_long} -> {stop, normal, State}
    end.

target(#state{socket = Socket, peer = Peer}) when is_port(Socket) -> {tcp, self(), Peer};
target(#state{peer = Peer}) -> {tcp, {tls, self()}, Peer}.

%% Stops the timer, because a message has arrived.
due(State = #state{due = none}) -> State;
due(State = #state{due = Due}) ->
    _ = erlang:cancel_timer(Due),
    State#state{due = none}.
