%% A fake rtpengine for tests. It answers requests in the ng protocol, but relays no media. A browser's media are those
%% of a `caller', which talks directly to rtpengine's target.
-module(rtpengine).

-export([start/0, address/1, offer/1, offers/1, calls/1, be/2, restart/1]).

-record(state, {socket, callers = #{}, calls = #{}, offers = [], is = serving, started}).

start() ->
    Parent = self(),
    Pid = spawn_link(fun() ->
        {ok, Socket} = gen_udp:open(0, [binary, {ip, {127, 0, 0, 1}}, {active, true}]),
        {ok, Port} = inet:port(Socket),
        Parent ! {self(), Port},
        loop(#state{socket = Socket, started = now_s() - 100})
    end),
    receive {Pid, Port} -> {Pid, Port} end.

now_s() -> erlang:monotonic_time(second).

address({_, Port}) -> {{127, 0, 0, 1}, Port}.

%% Returns a browser's caller and offer.
offer({Pid, _}) ->
    Caller = caller:start(),
    {{_, Port}, _} = caller:media(Caller),
    Pid ! {browser, Port, Caller},
    {Caller, iolist_to_binary(["v=0\r\no=- 1 2 IN IP4 127.0.0.1\r\ns=", integer_to_list(Port), "\r\nt=0 0\r\n"
        "m=audio 9 UDP/TLS/RTP/SAVPF 111 0 8\r\nc=IN IP4 192.0.2.66\r\na=rtcp:9 IN IP4 192.0.2.66\r\na=candidate:1 1 udp 1 192.0.2.66 9 typ host\r\n"
        "a=ice-ufrag:abcd\r\na=ice-pwd:abcdefghijklmnopqrstuvwx\r\na=fingerprint:sha-256 00\r\na=setup:actpass\r\na=rtpmap:111 opus/48000/2\r\n"])}.

%% Returns the offers that browsers made, the newest first.
offers(R) -> asked(offers, R).
%% Returns the current calls.
calls(R) -> asked(calls, R).
%% Sets the state: `serving', `lost', or `refusing'.
be(Is, R) -> asked({be, Is}, R).
%% Forgets all calls, as after a kill.
restart(R) -> asked(restart, R).

asked(What, {Pid, _}) ->
    Pid ! {What, self()},
    receive {Pid, Answer} -> Answer end.

loop(S = #state{socket = Socket, callers = Callers, calls = Calls, offers = Offers, is = Is, started = Started}) ->
    receive
        {browser, Port, Caller} -> loop(S#state{callers = Callers#{Port => Caller}});
        {offers, From} -> From ! {self(), Offers}, loop(S);
        {calls, From} -> From ! {self(), maps:keys(Calls)}, loop(S);
        {{be, New}, From} -> From ! {self(), ok}, loop(S#state{is = New});
        {restart, From} ->
            [silence(Caller) || Caller <- maps:values(Calls)],
            From ! {self(), ok},
            loop(S#state{started = now_s(), calls = #{}});
        {udp, _, _, _, _} when Is =:= lost -> loop(S);
        {udp, _, Address, Port, Datagram} ->
            [Cookie, Text] = binary:split(Datagram, <<" ">>),
            {Answer, Next} = answer(jiffy:decode(Text, [return_maps]), S),
            Uptime = integer_to_binary(now_s() - Started),
            Full = case Answer of statistics -> #{result => ok, statistics => #{totalstatistics => #{uptime => Uptime}}}; _ -> Answer end,
            ok = gen_udp:send(Socket, Address, Port, [Cookie, " ", jiffy:encode(Full)]),
            loop(Next)
    end.

answer(#{<<"command">> := <<"statistics">>}, S) -> {statistics, S};
answer(_, S = #state{is = refusing}) -> {#{result => error, 'error-reason' => <<"refused">>}, S};
answer(#{<<"command">> := <<"offer">>, <<"from-tag">> := <<"web">>, <<"sdp">> := Sdp, <<"call-id">> := Id}, S = #state{callers = Callers, calls = Calls, offers = Offers}) ->
    {match, [Port]} = re:run(Sdp, "s=([0-9]+)", [{capture, all_but_first, binary}]),
    Caller = maps:get(binary_to_integer(Port), Callers),
    {#{result => ok, sdp => <<"v=0\r\no=- 1 1 IN IP4 127.0.0.1\r\ns=-\r\nc=IN IP4 127.0.0.1\r\nt=0 0\r\nm=audio ", Port/binary, " RTP/AVP 0 8\r\n">>},
     S#state{calls = Calls#{Id => Caller}, offers = [Sdp | Offers]}};
%% Answers an offer or an answer. If it has the gateway's address, the browser's caller talks to that address.
answer(#{<<"command">> := Command, <<"from-tag">> := Tag, <<"sdp">> := Sdp, <<"call-id">> := Id}, S = #state{calls = Calls}) when is_map_key(Id, Calls) ->
    case {Command, Tag} of
        {<<"answer">>, <<"room">>} -> ok;
        _ ->
            {match, [Port]} = re:run(Sdp, "m=audio ([0-9]+) RTP/AVP", [{capture, all_but_first, list}]),
            caller:talk(map_get(Id, Calls), {{127, 0, 0, 1}, list_to_integer(Port)})
    end,
    {#{result => ok, sdp => Sdp}, S};
answer(#{<<"command">> := <<"delete">>, <<"call-id">> := Id}, S = #state{calls = Calls}) when is_map_key(Id, Calls) ->
    silence(map_get(Id, Calls)),
    {#{result => ok}, S#state{calls = maps:remove(Id, Calls)}};
answer(_, S) -> {#{result => error, 'error-reason' => <<"Unknown call-id">>}, S}.

%% Makes a caller talk to a port that no process reads.
silence(Caller) -> caller:talk(Caller, {{127, 0, 0, 1}, 9}).
