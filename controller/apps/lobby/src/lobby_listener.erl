%%% @doc The process that accepts TCP connections on one port.
-module(lobby_listener).

-export([start_link/3, listen/3]).

%% The maximum number of connections on one port, of connections from one address, and of new connections from one
%% address in a second (twice as many in a burst). `lobby_admission' counts connections like calls, so proxies have no
%% per-address limits.
-define(LIMITS, #{max_calls => 1024, max_calls_from => 64, new_calls_from => 64}).
%% Milliseconds to wait for a connection before checking for connections that have ended.
-define(ACCEPT, 1000).

-spec start_link(lobby_socket:address(), lobby_socket:tls() | none, lobby_admission:limits()) ->
          {ok, pid()} | {error, term()}.
start_link(Own, Tls, Limits) ->
    proc_lib:start_link(?MODULE, listen, [Own, Tls, Limits]).

-spec listen(lobby_socket:address(), lobby_socket:tls() | none, lobby_admission:limits()) -> no_return().
listen({Address, Port}, Tls, Limits) ->
    Options = [binary, {ip, Address}, {active, false}, {reuseaddr, true}, {nodelay, true}, {backlog, 128},
               {send_timeout, 5000}, {send_timeout_close, true}],
    case lobby_socket:opened(fun() -> gen_tcp:listen(Port, Options) end) of
        {ok, Socket} ->
            proc_lib:init_ack({ok, self()}),
            accept(Socket, Tls, lobby_admission:new(maps:merge(Limits, ?LIMITS)));
        {error, Reason} -> proc_lib:init_ack({error, Reason}), exit(Reason)
    end.

accept(Listener, Tls, Admission) ->
    case gen_tcp:accept(Listener, ?ACCEPT) of
        {ok, Socket} -> accept(Listener, Tls, connected(Socket, Tls, ended(Admission)));
        {error, timeout} -> accept(Listener, Tls, ended(Admission));
        %% The process has no free file descriptors, or the phone gave up.
        {error, Reason} when Reason =/= closed -> timer:sleep(100), accept(Listener, Tls, ended(Admission))
    end.

ended(Admission) ->
    receive
        {'DOWN', _, process, Pid, _} -> ended(lobby_admission:left(Pid, Admission))
    after 0 -> Admission
    end.

connected(Socket, Tls, Admission) ->
    case inet:peername(Socket) of
        {ok, Peer} -> admitted(Socket, Peer, Tls, Admission);
        {error, _} -> ok = gen_tcp:close(Socket), Admission
    end.

admitted(Socket, Peer = {Address, _}, Tls, Before) ->
    case lobby_admission:call(Address, {<<>>, false}, erlang:monotonic_time(millisecond), Before) of
        {ok, Admission} ->
            {ok, Pid} = supervisor:start_child(lobby_connections, [Socket, Peer]),
            _ = gen_tcp:controlling_process(Socket, Pid),
            Pid ! {ready, Tls},
            _ = monitor(process, Pid),
            lobby_admission:entered(Pid, Address, <<>>, Admission);
        {_, Admission} -> ok = gen_tcp:close(Socket), Admission
    end.
