%% A caller's media for tests: sends loud packets continuously, and counts the received packets that aren't silent.
-module(caller).

-export([start/0, start/2, media/1, talk/2, received/1, heard/1, first_heard/1, reset/1]).

start() -> start(binary:copy(<<16#90>>, 160), fun(_) -> ok end).

%% Starts a caller that sends `Said' continuously, and calls `Pass' with each payload that it receives.
start(Said, Pass) ->
    Parent = self(),
    Pid = spawn_link(fun() ->
        {ok, Socket} = gen_udp:open(0, [binary, {ip, {127, 0, 0, 1}}, {active, true}]),
        {ok, Port} = inet:port(Socket),
        Parent ! {self(), Port},
        loop(Socket, none, {Said, Pass}, 0, {0, 0, none})
    end),
    receive {Pid, Port} -> {Pid, Port} end.

media({_, Port}) -> {{{127, 0, 0, 1}, Port}, pcmu}.

talk({Pid, _}, To) -> Pid ! {talk, To}, ok.

received(Caller) -> element(1, counts(Caller)).
heard(Caller) -> element(2, counts(Caller)).
%% Returns the arrival time of the first packet since `reset/1' that isn't silent, in monotonic milliseconds.
first_heard(Caller) -> element(3, counts(Caller)).

reset({Pid, _}) -> Pid ! reset, ok.

counts({Pid, _}) ->
    Pid ! {counts, self()},
    receive {Pid, Counts} -> Counts end.

loop(Socket, To, Speech = {Said, Pass}, Sequence, Counts = {Received, Heard, First}) ->
    receive
        {udp, Socket, _, _, <<_:12/binary, Payload/binary>>} ->
            Pass(Payload),
            %% In PCMU, a sample of silence is 0xFF, or 0x7F for minus zero.
            Silent = lists:all(fun(Byte) -> Byte bor 16#80 =:= 16#FF end, binary_to_list(Payload)),
            loop(Socket, To, Speech, Sequence, case {Silent, First} of
                {true, _} -> {Received + 1, Heard, First};
                {false, none} -> {Received + 1, Heard + 1, erlang:monotonic_time(millisecond)};
                {false, _} -> {Received + 1, Heard + 1, First}
            end);
        reset ->
            loop(Socket, To, Speech, Sequence, {0, 0, none});
        {talk, New} ->
            case To of none -> self() ! tick; _ -> ok end,
            loop(Socket, New, Speech, Sequence, Counts);
        tick ->
            erlang:send_after(20, self(), tick),
            {Address, Port} = To,
            ok = gen_udp:send(Socket, Address, Port, <<2:2, 0:6, 0, Sequence:16, (160 * Sequence):32, 7:32, Said/binary>>),
            loop(Socket, To, Speech, Sequence + 1, Counts);
        {counts, From} ->
            From ! {self(), Counts},
            loop(Socket, To, Speech, Sequence, Counts)
    end.
