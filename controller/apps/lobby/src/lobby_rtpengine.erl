%%% @doc Sends requests to rtpengine, and checks regularly whether it answers. rtpengine relays media between browsers
%%% and gateways. A message of its ng protocol is a cookie and JSON over UDP. rtpengine repeats its answer to a cookie
%%% that it has already answered.
-module(lobby_rtpengine).

-export([start_link/1, ask/2, state/0]).

%% In milliseconds: the waits for an answer after each transmission of a request, the time after which no earlier
%% request is under way any more, and the interval between checks of rtpengine.
-define(TRIES, [200, 400, 800]).
-define(LATER, 2000).
-define(LOOK, 1000).

%% @doc Starts a process that checks rtpengine regularly, if one is configured.
-spec start_link(lobby_socket:address() | none) -> {ok, pid()} | ignore.
start_link(none) ->
    ok = persistent_term:put(?MODULE, none),
    ignore;
start_link(_) ->
    ok = persistent_term:put(?MODULE, lost),
    {ok, proc_lib:spawn_link(fun() -> true = register(?MODULE, self()), look(lost) end)}.

%% @doc Returns whether rtpengine answers, or `none' if none is configured.
-spec state() -> none | lost | serving.
state() ->
    persistent_term:get(?MODULE, none).

%% @doc Sends a request. Within one and a half seconds, the calling process is sent `{rtpengine, Tag, Result}'.
-spec ask(Tag :: term(), map()) -> ok.
ask(Tag, Request) ->
    Self = self(),
    _ = spawn(fun() -> Self ! {rtpengine, Tag, answer(Request)}, again(Request) end),
    ok.

%% The call's offer may arrive after the request to delete the call, and create the call again. So it is deleted again.
again(Request = #{command := delete}) -> timer:sleep(?LATER), answer(Request);
again(_) -> ok.

answer(Request) ->
    case {application:get_env(lobby, rtpengine, none), gen_udp:open(0, [binary, {active, false}, {recbuf, 65536}])} of
        {Address = {_, _}, {ok, Socket}} ->
            Cookie = string:lowercase(binary:encode_hex(crypto:strong_rand_bytes(8))),
            Answer = tried(?TRIES, [Cookie, " ", jiffy:encode(Request)], Cookie, Address, Socket),
            ok = gen_udp:close(Socket),
            Answer;
        {_, _} -> {error, no_relay}
    end.

tried([], _, _, _, _) -> {error, no_relay};
tried([Wait | Waits], Text, Cookie, Address = {Ip, Port}, Socket) ->
    %% A request that can't be sent now, because the network is down, is sent again.
    _ = gen_udp:send(Socket, Address, Text),
    case gen_udp:recv(Socket, 0, Wait) of
        {ok, {Ip, Port, <<Cookie:16/binary, " ", Result/binary>>}} -> result(Result);
        {error, timeout} -> tried(Waits, Text, Cookie, Address, Socket);
        _ -> timer:sleep(Wait), tried(Waits, Text, Cookie, Address, Socket)
    end.

result(Text) ->
    try jiffy:decode(Text, [return_maps]) of
        Answer = #{<<"result">> := <<"ok">>} -> {ok, Answer};
        Answer -> {error, {relay, Answer}}
    catch error:_ -> {error, {relay, Text}}
    end.

%% Checks rtpengine in a loop. `Before' is rtpengine's uptime in seconds at the last check, or `lost'. A lower uptime
%% shows that rtpengine has been restarted.
look(Before) ->
    Ran = seen(answer(#{command => statistics}), Before),
    timer:sleep(?LOOK),
    look(Ran).

%% Notes the result of a check. When rtpengine is lost or restarted, all relayed calls are lost.
seen({ok, #{<<"statistics">> := #{<<"totalstatistics">> := #{<<"uptime">> := Uptime}}}}, Before) ->
    Ran = binary_to_integer(Uptime),
    _ = [begin logger:notice("rtpengine is in service"), persistent_term:put(?MODULE, serving) end || Before =:= lost],
    _ = [lost("rtpengine has been restarted") || Before =/= lost, Ran < Before],
    Ran;
seen(_, Before) ->
    ok = persistent_term:put(?MODULE, lost),
    _ = [lost("rtpengine is lost") || Before =/= lost],
    lost.

lost(Text) ->
    logger:warning(Text),
    lists:foreach(fun({{web, _}, Pid}) -> Pid ! {rtpengine, lost, now}; (_) -> ok end, lobby_registry:names(call)).
