%% Runs the proved program behind a socket, without media and without a clock (`mg_bridge replay'), so that one host can
%% run a hundred gateways.
-module(simulated_gateway).

-export([start/2, config/1, kill/1, contexts/1]).

-record(state, {socket, program, contexts = #{}, asked = none}).

start(Name, First) ->
    Parent = self(),
    Pid = spawn(fun() ->
        {ok, Socket} = gen_udp:open(0, [binary, {ip, {127, 0, 0, 1}}, {active, true}, {recbuf, 262144}, {buffer, 65536}]),
        {ok, Address} = inet:sockname(Socket),
        Args = ["replay", "--first-context", integer_to_list(First), "--first-termination", integer_to_list(First)],
        Program = open_port({spawn_executable, os:getenv("BRIDGE")}, [{args, Args}, binary, {line, 200000}, exit_status]),
        Parent ! {self(), Address},
        loop(#state{socket = Socket, program = Program})
    end),
    receive {Pid, Address} -> #{name => Name, pid => Pid, address => Address} end.

config(#{name := Name, address := Address}) -> #{name => Name, address => Address}.

kill(#{pid := Pid}) -> exit(Pid, kill).

%% Returns how many contexts and terminations a gateway has.
contexts(#{pid := Pid}) ->
    Pid ! {count, self()},
    receive {Pid, Counts} -> Counts end.

loop(State = #state{socket = Socket, program = Program, contexts = Contexts}) ->
    receive
        {udp, Socket, Address, Port, Datagram} ->
            true = port_command(Program, io_lib:format("control ~s:~b ~s\n", [inet:ntoa(Address), Port, binary:encode_hex(Datagram)])),
            loop(State);
        {Program, {data, {eol, <<"say ", Line/binary>>}}} ->
            loop(answered(Line, State));
        {count, From} ->
            %% Audits, from an unused address, all contexts that have occurred in a reply.
            Known = maps:keys(Contexts),
            [port_command(Program, io_lib:format("say 127.0.0.9:9 MEGACO/1 [127.0.0.9]:9 Transaction=~b{Context=~s{AuditValue=*{Audit{}}}}\n",
                                                 [rand:uniform(1 bsl 31), C])) || C <- Known],
            loop(counted(length(Known), From, {0, 0}, State))
    end.

answered(Line, State = #state{socket = Socket, contexts = Contexts}) ->
    [To, Text] = binary:split(Line, <<" ">>),
    [Address, Port] = binary:split(To, <<":">>),
    {ok, Ip} = inet:parse_ipv4strict_address(binary_to_list(Address)),
    ok = gen_udp:send(Socket, Ip, binary_to_integer(Port), unescaped(Text)),
    Named = case re:run(Text, "Context=(\\d+)", [global, {capture, all_but_first, binary}]) of {match, M} -> lists:append(M); nomatch -> [] end,
    State#state{contexts = maps:merge(Contexts, maps:from_keys(Named, known))}.

unescaped(Text) ->
    lists:foldl(fun({Escape, Byte}, Acc) -> binary:replace(Acc, Escape, Byte, [global]) end, Text,
                [{<<"\\n">>, <<"\n">>}, {<<"\\r">>, <<"\r">>}, {<<"\\\\">>, <<"\\">>}]).

counted(0, From, Counts, State) ->
    From ! {self(), Counts},
    State;
counted(Left, From, {Contexts, Terminations}, State = #state{program = Program}) ->
    receive
        {Program, {data, {eol, <<"say 127.0.0.9:9 ", Text/binary>>}}} ->
            case re:run(Text, "RTP/\\d+", [global]) of
                {match, Found} -> counted(Left - 1, From, {Contexts + 1, Terminations + length(Found)}, State);
                nomatch -> counted(Left - 1, From, {Contexts, Terminations}, State)
            end;
        {Program, {data, {eol, <<"say ", Line/binary>>}}} ->
            counted(Left, From, {Contexts, Terminations}, answered(Line, State))
    end.
