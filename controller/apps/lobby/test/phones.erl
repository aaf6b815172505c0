%% Many phones behind one socket, for `scale': they call, and answer requests.
-module(phones).

-export([start/3, call/2, forget/1, options/1, asked/3]).

-record(state, {socket, to, port, callers, rooms, parent, next = 1, open = #{}, tags = #{}, times = [], asked = #{}, waiting = none, pinged = none}).

start(To, Callers, Rooms) ->
    Parent = self(),
    Pid = spawn_link(fun() ->
        {ok, Socket} = gen_udp:open(0, [binary, {ip, {127, 0, 0, 1}}, {active, 200}, {recbuf, 8388608}, {sndbuf, 8388608}]),
        {ok, Port} = inet:port(Socket),
        _ = timer:send_interval(500, again),
        loop(#state{socket = Socket, to = To, port = Port, callers = Callers, rooms = Rooms, parent = Parent})
    end),
    Pid.

%% Makes calls from all phones. At any time, at most `Window' phones wait for a response.
call(Pid, Window) ->
    Start = now_ms(),
    Pid ! {call, Window},
    receive {Pid, called, Times} ->
        Sorted = lists:sort(Times),
        #{took => now_ms() - Start, median => lists:nth(max(1, length(Sorted) div 2), Sorted), max => lists:last(Sorted)}
    end.

forget(Pid) -> Pid ! forget, ok.

%% Sends requests in the first call until one of them is answered. Returns the time of the answer.
options(Pid) ->
    Pid ! options,
    receive {Pid, options, When} -> When end.

%% Waits until this many phones have been re-invited since `forget/1'. Fails after a limit.
asked(Pid, Count, Limit) ->
    Pid ! {asked, Count},
    receive {Pid, asked} -> ok after Limit -> error(not_asked) end.

now_ms() -> erlang:monotonic_time(millisecond).

loop(State = #state{socket = Socket, asked = Asked, waiting = Waiting}) ->
    case Waiting of
        N when is_integer(N), map_size(Asked) >= N -> State#state.parent ! {self(), asked}, loop(State#state{waiting = none});
        _ -> ok
    end,
    receive
        {call, Window} -> loop(lists:foldl(fun(_, S) -> next(S) end, State, lists:seq(1, Window)));
        forget -> loop(State#state{asked = #{}});
        {asked, Count} -> loop(State#state{waiting = Count});
        options -> self() ! ping, loop(State#state{pinged = 2});
        ping when State#state.pinged =/= none ->
            send("OPTIONS", 1, State#state.pinged, "", State),
            _ = erlang:send_after(20, self(), ping),
            loop(State#state{pinged = State#state.pinged + 1});
        ping -> loop(State);
        again ->
            [send("INVITE", N, 1, sdp(), State) || {N, At} <- maps:to_list(State#state.open), now_ms() - At > 500],
            loop(State);
        {udp_passive, Socket} -> ok = inet:setopts(Socket, [{active, 200}]), loop(State);
        {udp, Socket, _, _, Text} -> loop(received(Text, State))
    end.

next(State = #state{next = N, callers = Callers}) when N > Callers -> State;
next(State = #state{next = N, open = Open}) ->
    send("INVITE", N, 1, sdp(), State),
    State#state{next = N + 1, open = Open#{N => now_ms()}}.

sdp() -> "v=0\r\no=- 1 1 IN IP4 127.0.0.1\r\ns=-\r\nc=IN IP4 127.0.0.1\r\nt=0 0\r\nm=audio 9000 RTP/AVP 0\r\na=sendrecv\r\n".

send(Method, N, Number, Body, #state{socket = Socket, to = {Address, ToPort}, port = Port, rooms = Rooms, tags = Tags}) ->
    To = case Tags of #{N := Tag} -> [";tag=", Tag]; #{} -> "" end,
    ok = gen_udp:send(Socket, Address, ToPort,
        io_lib:format("~s sip:~b@127.0.0.1 SIP/2.0\r\nVia: SIP/2.0/UDP 127.0.0.1:~b;branch=z9hG4bK~b-~b-~s\r\nMax-Forwards: 70\r\nFrom: <sip:p~b@127.0.0.1>;tag=t~b\r\n"
                      "To: <sip:~b@127.0.0.1>~s\r\nCall-ID: c~b\r\nCSeq: ~b ~s\r\nContact: <sip:p~b@127.0.0.1:~b>\r\nContent-Type: application/sdp\r\n"
                      "Content-Length: ~b\r\n\r\n~s", [Method, N rem Rooms, Port, N, Number, Method, N, N, N rem Rooms, To, N, Number, Method, N, Port, length(Body), Body])).

received(Text = <<"SIP/2.0 200", _/binary>>, State = #state{open = Open}) ->
    N = caller(Text),
    case {method(Text), Open} of
        {<<"INVITE">>, #{N := At}} ->
            {match, [Tag]} = re:run(Text, "\r\nTo: [^\r]*;tag=([^;\r]*)", [{capture, all_but_first, binary}]),
            State1 = State#state{tags = (State#state.tags)#{N => Tag}, open = maps:remove(N, Open), times = [now_ms() - At | State#state.times]},
            send("ACK", N, 1, "", State1),
            called(next(State1));
        {<<"INVITE">>, _} -> send("ACK", N, 1, "", State), State;
        {<<"OPTIONS">>, _} when State#state.pinged =/= none -> State#state.parent ! {self(), options, now_ms()}, State#state{pinged = none};
        _ -> State
    end;
received(Text = <<"INVITE", _/binary>>, State = #state{socket = Socket, to = {Address, ToPort}, port = Port, asked = Asked}) ->
    N = caller(Text),
    Kept = [[Name, ": ", Value, "\r\n"] || Name <- ["Via", "From", "To", "Call-ID", "CSeq"],
                                           {match, [Value]} <- [re:run(Text, ["\r\n", Name, ": ([^\r]*)"], [{capture, all_but_first, binary}])]],
    Body = sdp(),
    ok = gen_udp:send(Socket, Address, ToPort, ["SIP/2.0 200 OK\r\n", Kept, io_lib:format("Contact: <sip:p~b@127.0.0.1:~b>\r\nContent-Type: application/sdp\r\nContent-Length: ~b\r\n\r\n~s", [N, Port, length(Body), Body])]),
    State#state{asked = Asked#{N => true}};
received(_, State) ->
    State.

called(State = #state{open = Open, next = Next, callers = Callers, times = Times, parent = Parent}) when map_size(Open) =:= 0, Next > Callers ->
    Parent ! {self(), called, Times},
    State;
called(State) -> State.

caller(Text) ->
    {match, [N]} = re:run(Text, "\r\nCall-ID: c(\\d+)", [{capture, all_but_first, binary}]),
    binary_to_integer(N).

method(Text) ->
    {match, [Method]} = re:run(Text, "\r\nCSeq: \\d+ (\\w+)", [{capture, all_but_first, binary}]),
    Method.
