%% Runs real gateways for tests, and reads their replies as text, without the controller's codec.
-module(gateway).

-export([start/0, start/1, free_address/0, kill_all/0, address/1, config/2, kill/1, restart/2, restart_elsewhere/2, stop/1, continue/1]).
-export([topology/2, modes/2, terminations/2, contexts/2, ask/2, ask_as/3]).

-record(gateway, {port, os_pid, control, base, socket, options}).

start() ->
    start([]).

%% Returns an address with a port that is free for both TCP and UDP. The port is below those that the kernel gives to
%% sockets without a port of their own, so none of them takes it before the server of a test does.
free_address() ->
    Address = {{127, 0, 0, 1}, 10000 + rand:uniform(9999)},
    case is_free(gen_tcp, listen, Address) andalso is_free(gen_udp, open, Address) of
        true -> Address;
        false -> free_address()
    end.

is_free(Module, Open, {Ip, Port}) ->
    case Module:Open(Port, [{ip, Ip}]) of
        {ok, Socket} -> ok = Module:close(Socket), true;
        {error, eaddrinuse} -> false
    end.

%% Starts a gateway on free ports.
start(Options) ->
    {_, Control} = free_address(),
    case started(Control, base(), Options) of
        in_use -> start(Options);
        G -> G
    end.

%% Media ports below those that the kernel gives to phones, so no phone takes one while the gateway is down.
base() -> 20000 + 2 * rand:uniform(6300).

started(Control, Base, Options) ->
    Args = ["live", "--control-port", integer_to_list(Control), "--base-port", integer_to_list(Base), "--slots", "80" | Options],
    Port = open_port({spawn_executable, os:getenv("BRIDGE")}, [{args, Args}, exit_status, {line, 1000}, stderr_to_stdout]),
    {os_pid, Pid} = erlang:port_info(Port, os_pid),
    persistent_term:put(?MODULE, [Pid | persistent_term:get(?MODULE, [])]),
    receive
        {Port, {data, {eol, "ready"}}} -> #gateway{port = Port, os_pid = Pid, control = Control, base = Base, options = Options};
        {Port, {exit_status, 5}} -> in_use;
        {Port, {exit_status, Status}} -> error({ended, Status, said(Port)})
    after 60000 -> error({not_ready, said(Port)})
    end.

%% Returns the lines that a gateway has printed.
said(Port) ->
    receive {Port, {data, {_, Line}}} -> [Line | said(Port)] after 0 -> [] end.

%% Kills the gateways that tests left behind.
kill_all() ->
    _ = os:cmd(["kill -9", [[" ", integer_to_list(Pid)] || Pid <- persistent_term:get(?MODULE, [])]]),
    persistent_term:put(?MODULE, []).

address(#gateway{control = Control}) -> {{127, 0, 0, 1}, Control}.

%% Returns a configuration with many tries, so that a gateway on a busy machine doesn't count as lost.
config(Name, Gateway) -> #{name => Name, address => address(Gateway), tries => 10}.

kill(G) -> signal("KILL", G).
stop(G) -> signal("STOP", G).
continue(G) -> signal("CONT", G).

signal(Signal, #gateway{os_pid = Pid}) ->
    "" = os:cmd("kill -" ++ Signal ++ " " ++ integer_to_list(Pid)),
    ok.

%% Restarts a gateway on the same ports, as soon as they are free.
restart(G = #gateway{control = Control, base = Base}, Options) ->
    ended(G),
    restarted(Control, Base, Options).

%% Restarts a gateway with other media ports.
restart_elsewhere(G = #gateway{control = Control}, Options) ->
    ended(G),
    elsewhere(Control, Options).

elsewhere(Control, Options) ->
    case started(Control, base(), Options) of
        in_use -> elsewhere(Control, Options);
        G -> G
    end.

restarted(Control, Base, Options) ->
    case started(Control, Base, Options) of
        in_use -> timer:sleep(100), restarted(Control, Base, Options);
        G -> G
    end.

ended(#gateway{port = Port, os_pid = Pid}) ->
    _ = os:cmd("kill -9 " ++ integer_to_list(Pid)),
    receive {Port, {exit_status, _}} -> ok after 15000 -> error(not_ended) end.

%% Sends an action to a gateway, and returns the reply's text.
ask(Request, G) -> ask_as("test", Request, G).

%% Sends an action with this sender's name.
ask_as(Name, Request, #gateway{control = Control}) ->
    {ok, Socket} = gen_udp:open(0, [binary, {active, false}, {ip, {127, 0, 0, 1}}, {buffer, 65536}]),
    ok = gen_udp:send(Socket, {127, 0, 0, 1}, Control,
                      io_lib:format("MEGACO/1 <~s>\nTransaction=~b{~s}", [Name, rand:uniform(1000000000), Request])),
    {ok, {_, _, Answer}} = gen_udp:recv(Socket, 0, 2000),
    ok = gen_udp:close(Socket),
    binary_to_list(Answer).

%% Returns the open flows in a context, as pairs of terminations: {Talker, Listener}.
topology(Context, G) ->
    Answer = ask(io_lib:format("Context=~b{ContextAudit{Topology}}", [Context]), G),
    Triples = case re:run(Answer, "RTP/(\\d+),RTP/(\\d+),(\\w+)", [global, {capture, all_but_first, list}]) of
        {match, Found} -> Found;
        nomatch -> []
    end,
    lists:sort(lists:append([case How of
        "Bothway" -> [{list_to_integer(A), list_to_integer(B)}, {list_to_integer(B), list_to_integer(A)}];
        "Oneway" -> [{list_to_integer(A), list_to_integer(B)}];
        "Isolate" -> []
    end || [A, B, How] <- Triples])).

%% Returns the mode of each termination in a context.
modes(Context, G) ->
    Answer = ask(io_lib:format("Context=~b{AuditValue=*{Audit{Media}}}", [Context]), G),
    case re:run(Answer, "AuditValue=RTP/(\\d+)\\{Media\\{Stream=1\\{LocalControl\\{Mode=(\\w+)", [global, {capture, all_but_first, list}]) of
        {match, Found} -> maps:from_list([{list_to_integer(T), list_to_atom(Mode)} || [T, Mode] <- Found]);
        nomatch -> #{}
    end.

terminations(Context, G) -> lists:sort(maps:keys(modes(Context, G))).

%% Returns those of the given contexts that exist on the gateway.
contexts(Contexts, G) ->
    [Context || Context <- Contexts, terminations(Context, G) =/= []].
