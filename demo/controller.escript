#!/usr/bin/env escript
%% -*- erlang -*-
%%! +sbwt none
%% A controller for several gateways, based on Erlang's megaco as packaged by Debian: apt-get install erlang-base
%% erlang-megaco
%%     controller.escript [--here HOST:PORT] [--conferences N] [--members N] [--callers HOST:PORT] [--room N] GATEWAY ..
%% A gateway is HOST:PORT. Defaults are in parentheses. The controller makes N conferences (1) of N members (3), each on
%% the gateway with the most room; a gateway has room for `--room` callers (256). Caller k, counted from 0, listens on
%% the port of `--callers` (127.0.0.1:40000) plus 2k. The controller itself is at `--here` (127.0.0.1:2945). It reads
%% lines: `isolate C A B`, `oneway C A B` (B hears A) and `release C A B`, for members A and B of conference C, where B
%% may be `*`, except in `oneway`; `stats`; and `quit`, which ends the conferences and the controller.
%%
%% Once a second, it audits one of its terminations on each gateway, or the gateway if there is none. A gateway that
%% does not answer within 1.2 s is lost; a gateway that answers with an error, such as 411 or 430, has restarted. In
%% both cases, its conferences are recreated on other gateways, or wait until a gateway has room, with the same
%% isolations. The controller prints lines about these events. The `member` lines are for callers: member 3 of
%% conference 1 listens on port 40004, and sends to port 30004.
%%     gateway 127.0.0.1:2944 up
%%     gateway 127.0.0.1:2944 lost: no answer
%%     conference 1 on 127.0.0.1:2944 context 1764079200
%%     member 1 3 127.0.0.1:40004 at 127.0.0.1:30004
%%     conference 1 waits: no gateway has room
-module(controller).
-mode(compile).
-export([main/1, handle_connect/3, handle_disconnect/4, handle_syntax_error/4, handle_message_error/4,
         handle_trans_request/4, handle_unexpected_trans/4]).
%% Megaco's records are written as tuples, following megaco_message_v1.hrl, which is in another package.
-define(NONE, asn1_NOVALUE).
-define(CHOOSE, 16#FFFFFFFE).
-define(ALL, {megaco_term_id, true, ["*"]}).
%% A conference: where its members listen, its gateway (`none` while it waits), and its topology, by members.
-record(conference, {callers, gateway = none, topology = []}).
%% The server: the processes of the gateways by name, the names of those that serve, and conferences by number.
-record(server, {gateways, up = [], conferences, room}).
%% A gateway: its connection; whether it serves; its conferences as {Number, Context, Terminations}, oldest first; and
%% contexts that it may still have from before it was lost.
-record(gateway, {name, connection, up = false, own = [], stale = []}).

main(Words) ->
    case options(Words, #{"here" => "127.0.0.1:2945", "conferences" => "1", "members" => "3", "room" => "256",
                          "callers" => "127.0.0.1:40000"}) of
        {Options, Names = [_ | _]} -> run(Options, Names);
        _ -> io:format(standard_error, "usage: controller.escript [--OPTION VALUE].. HOST:PORT ..~n", []), halt(2)
    end.
options(["--" ++ Key, Value | Rest], Options) when is_map_key(Key, Options) -> options(Rest, Options#{Key := Value});
options(["--" ++ _ | _], _) -> none;
options(Names, Options) -> {Options, Names}.

run(Options = #{"here" := Here, "callers" := FirstCaller}, Names) ->
    %% Standard output is for events; warnings from libraries go to standard error.
    logger:remove_handler(default),
    logger:add_handler(default, logger_std_h, #{config => #{type => standard_error}}),
    register(server, self()),
    Gateways = [{Name, spawn_link(fun() -> gateway(handle(check, #gateway{name = Name, connection = Connection})) end)}
                || {Name, Connection} <- connect(Here, Names)],
    spawn_link(fun read_lines/0),
    [Number, Members, Room] = [list_to_integer(maps:get(K, Options)) || K <- ["conferences", "members", "room"]],
    {Host, Port} = address(FirstCaller),
    Callers = fun(C) -> [{inet:ntoa(Host), Port + 2 * (C * Members - M)} || M <- lists:seq(Members, 1, -1)] end,
    Conferences = maps:from_list([{C, #conference{callers = Callers(C)}} || C <- lists:seq(1, Number)]),
    erlang:send_after(1000, self(), place),
    server(#server{gateways = maps:from_list(Gateways), conferences = Conferences, room = Room}).

address(Text) ->
    [Host, Port] = string:split(Text, ":"),
    {ok, Address} = inet:getaddr(Host, inet),
    {Address, list_to_integer(Port)}.
mid({Address, Port}) -> {ip4Address, {'IP4Address', tuple_to_list(Address), Port}}.

%% Connections to the gateways, over one socket. Replies are acknowledged. A request is sent up to four times, 300 ms
%% apart. Transactions are numbered from the clock, in hundredths of a second, so that a restarted controller does not
%% get its predecessor's replies. The buffers can hold answers of up to 64,036 bytes.
connect(Here, Names) ->
    Self = {Address, Port} = address(Here),
    Known = [{Name, address(Name)} || Name <- Names],
    ok = application:start(megaco),
    ok = megaco:start_user(mid(Self), [
        {user_mod, ?MODULE}, {user_args, [[mid(To) || {_, To} <- Known]]}, {send_mod, megaco_udp},
        {encoding_mod, megaco_pretty_text_encoder}, {auto_ack, true},
        {request_timer, {megaco_incr_timer, 300, 1, 0, 3}}, {min_trans_id, erlang:system_time(100) band 16#7FFFFFFF}]),
    Handle = megaco:user_info(mid(Self), receive_handle),
    {ok, Transport} = megaco_udp:start_transport(),
    {ok, Socket, Control} = megaco_udp:open(Transport, [
        {port, Port}, {receive_handle, Handle}, {udp_options, [{ip, Address}, {recbuf, 262144}, {buffer, 65536}]}]),
    Connect = fun(To = {ToAddress, ToPort}) ->
        megaco:connect(Handle, mid(To), megaco_udp:create_send_handle(Socket, ToAddress, ToPort), Control)
    end,
    [{Name, element(2, {ok, _} = Connect(To))} || {Name, To} <- Known].
%% Called by megaco. Only the gateways may connect. Their requests are answered with an error, and all else is ignored.
handle_connect({_, _, Mid}, _, Known) -> case lists:member(Mid, Known) of true -> ok; false -> error end.
handle_disconnect(_, _, _, _) -> ok.
handle_syntax_error(_, _, _, _) -> no_reply.
handle_message_error(_, _, _, _) -> ok.
handle_trans_request(_, _, _, _) -> {discard_ack, {'ErrorDescriptor', 501, "not served"}}.
handle_unexpected_trans(_, _, _, _) -> ok.

read_lines() ->
    Line = io:get_line(""),
    is_list(Line) andalso begin server ! {line, string:lexemes(Line, " \n")}, read_lines() end.

%% The server knows which gateway has which conference.
server(S = #server{up = Up, gateways = Gateways}) ->
    receive
        %% Conferences are placed once a second, not as soon as a gateway is up, so that the first ones are spread over
        %% all gateways.
        place -> erlang:send_after(1000, self(), place), server(place(none, [], S));
        %% A gateway serves once it has received `serve`. It ignores whatever it was sent before it reported itself up.
        {up, Name} -> tell(Name, serve, S), server(S#server{up = [Name | Up -- [Name]]});
        {lost, Name} -> server(place(Name, [Name], S#server{up = Up -- [Name]}));
        {refused, Name, C} -> server(place(C, [Name], S));
        {line, ["quit"]} ->
            [tell(Name, quit, S) || Name <- maps:keys(Gateways)],
            [receive ended -> ok after 2000 -> ok end || _ <- maps:keys(Gateways)];
        {line, Words} -> server(try line(Words, S) catch _:_ -> say("not understood", []), S end)
    end.
tell(Name, Message, S) -> maps:get(Name, S#server.gateways) ! Message.
%% Places conferences (those of a gateway, those that wait, or one by number), each on the gateway with the most room
%% that isn't in Except.
place(Which, Except, S = #server{conferences = All}) ->
    Chosen = [C || {C, #conference{gateway = Name}} <- maps:to_list(All), lists:member(Which, [Name, C])],
    lists:foldl(fun(C, T) -> place_one(C, Except, T) end, S, Chosen).
place_one(C, Except, S = #server{up = Up, conferences = All, room = Room}) ->
    X = #conference{callers = Callers, gateway = Before, topology = Topology} = maps:get(C, All),
    Held = [{Name, length(There)} || #conference{gateway = Name, callers = There} <- maps:values(All)],
    Loads = [{lists:sum(proplists:get_all_values(Name, Held)), Name} || Name <- Up -- Except],
    Fits = [Load || Load = {N, _} <- Loads, N + length(Callers) =< Room],
    Chosen = case lists:sort(Fits) of [{_, Name} | _] -> Name; [] -> none end,
    Chosen =:= none orelse tell(Chosen, {make, C, Callers, Topology}, S),
    Chosen =:= none andalso Before =/= none andalso say("conference ~b waits: no gateway has room", [C]),
    S#server{conferences = All#{C := X#conference{gateway = Chosen}}}.

line([], S) -> S;
line(["stats"], S) -> [tell(Name, stats, S) || Name <- S#server.up], S;
line([Word, Conference, From, To], S = #server{conferences = All}) ->
    How = maps:get(Word, #{"isolate" => isolate, "oneway" => oneway, "release" => bothway}),
    C = list_to_integer(Conference),
    X = #conference{callers = Callers, gateway = Name, topology = Before} = maps:get(C, All),
    Pair = {A, B} = {list_to_integer(From), case To of "*" -> all; _ -> list_to_integer(To) end},
    true = A =/= B andalso {B, How} =/= {all, oneway} andalso [] =/= [lists:nth(M, Callers) || M <- [A, B], M =/= all],
    %% The topology is kept, in order, for a gateway that has to recreate the conference.
    Topology = [Triple || Triple = {A1, B1, _} <- Before, {A1, B1} =/= Pair] ++ [{A, B, How}],
    Name =:= none orelse tell(Name, {topology, C, {A, B, How}}, S),
    S#server{conferences = All#{C := X#conference{topology = Topology}}}.

%% A process for each gateway, so that a lost one delays no other. An answer that it can't parse counts as none.
gateway(G) ->
    receive
        quit -> leave(G), server ! ended;
        Message -> gateway(try handle(Message, G) catch _:Why -> lost(G, io_lib:format("~0P", [Why, 20])) end)
    end.

handle(check, G) -> erlang:send_after(1000, self(), check), check(G);
handle(serve, G) -> G#gateway.up orelse say("gateway ~s up", [G#gateway.name]), G#gateway{up = true};
handle(_, G = #gateway{up = false}) -> G;
handle({make, C, Callers, Topology}, G) -> make(C, Callers, Topology, G);
handle({topology, C, Triple}, G = #gateway{own = Own}) ->
    case lists:keyfind(C, 1, Own) of false -> G; Conference -> isolate(Conference, Triple, G) end;
handle(stats, G) ->
    [stats(C, ask([action(Context, ?NONE, [audit(?ALL, [statsToken])])], G)) || {C, Context, _} <- G#gateway.own], G.
stats(C, {ok, _, [{_, _, _, _, Audits}]}) ->
    Members = [Told || {auditValueReply, {auditResult, {_, _, [{statisticsDescriptor, Told}]}}} <- Audits],
    [say("stats ~b ~b~s", [C, M, [[" ", Name, "=", Value] || {_, Name, [Value]} <- Told]])
     || {M, Told} <- lists:zip(lists:seq(1, length(Members)), Members)].

%% A Topology alone is answered with `Context=1`, which megaco cannot read. So an empty audit goes with it.
isolate({C, Context, Terminations = [T | _]}, Triple = {A, B, How}, G) ->
    {Outcome, Code, _} = ask([action(Context, topology([Triple], Terminations), [audit(T, [])])], G),
    say("conference ~b ~w ~w ~w: ~w~s", [C, How, A, B, Outcome, [[" ", integer_to_list(Code)] || Code > 0]]),
    case Outcome of gone -> lost(G, "no answer"); _ -> G end.

%% Audits the gateway's oldest termination, in its context, or if there is none, the gateway itself.
check(G = #gateway{own = [{_, Context, [T | _]} | _]}) ->
    case ask([action(Context, ?NONE, [audit(T, [])])], G) of
        {ok, _, _} -> G;
        {refused, Code, _} -> check(lost(G, ["restarted, error ", integer_to_list(Code)]));
        {gone, _, _} -> lost(G, "no answer")
    end;
check(G = #gateway{name = Name, up = Up}) ->
    case ask([action(0, ?NONE, [audit({megaco_term_id, false, ["root"]}, [])])], G) of
        {ok, _, _} when Up -> G;
        {ok, _, _} -> leave(G), server ! {up, Name}, G#gateway{stale = []};
        _ -> lost(G, "no answer")
    end.
%% If the gateway was only unreachable, it still has the contexts, so they are remembered until it answers.
lost(G = #gateway{name = Name, own = Own, stale = Stale, up = Up}, Why) ->
    Up andalso begin say("gateway ~s lost: ~s", [Name, Why]), server ! {lost, Name} end,
    G#gateway{up = false, own = [], stale = [Context || {_, Context, _} <- Own] ++ Stale}.
%% Ends the contexts that the gateway has, and those that it may have. It is no error if one doesn't exist.
leave(#gateway{own = Own, stale = Stale} = G) ->
    Subtract = {'CommandRequest', {subtractReq, {'SubtractRequest', [?ALL], {'AuditDescriptor', []}}}, 'NULL', ?NONE},
    Contexts = [Context || {_, Context, _} <- Own] ++ Stale,
    Contexts =:= [] orelse ask([action(Context, ?NONE, [Subtract]) || Context <- Contexts], G).

%% Makes a conference, and prints which address each member sends to.
make(C, Callers, Topology, G = #gateway{name = Name, own = Own, stale = Stale}) ->
    case add(?CHOOSE, Callers, [], Topology, G) of
        {ok, Context, Members} ->
            Lines = [io_lib:format("member ~b ~b ~s:~b at ~s~n", [C, M, Host, Port, At])
                     || {M, {Host, Port}, {_, At}} <- lists:zip3(lists:seq(1, length(Members)), Callers, Members)],
            io:format("conference ~b on ~s context ~b~n~s", [C, Name, Context, Lines]),
            G#gateway{own = Own ++ [{C, Context, [T || {T, _} <- Members]}]};
        {refused, Code, Contexts} ->
            say("conference ~b refused by ~s: error ~b", [C, Name, Code]),
            leave(G#gateway{own = [], stale = Contexts}),
            server ! {refused, Name, C}, G;
        {gone, _, Contexts} -> lost(G#gateway{stale = Contexts ++ Stale}, "no answer")
    end.

%% Adds the members as Inactive, sixteen per message, to stay within 8192 bytes. When all have been added and the
%% isolations are set, lets them speak and hear.
add(Context, [], Members, Topology, G) ->
    Speak = amm(modReq, ?ALL, {'StreamParms', mode(sendRecv), ?NONE, ?NONE}),
    case ask([action(Context, topology(Topology, [T || {T, _} <- Members]), [Speak])], G) of
        {ok, _, _} -> {ok, Context, Members};
        {Failure, Code, _} -> {Failure, Code, [Context]}
    end;
add(Context, Callers, Members, Topology, G) ->
    {Some, Rest} = lists:split(min(16, length(Callers)), Callers),
    Streams = [{'StreamParms', mode(inactive), sdp("$", "$"), sdp(H, integer_to_list(P))} || {H, P} <- Some],
    Adds = [amm(addReq, {megaco_term_id, true, ["$"]}, Stream) || Stream <- Streams],
    case ask([action(Context, ?NONE, Adds)], G) of
        {ok, _, [{_, Made, _, _, Replies}]} -> add(Made, Rest, Members ++ [member(R) || R <- Replies], Topology, G);
        {Failure, Code, [{_, Made, _, _, _}]} -> {Failure, Code, [Made || Made =/= ?CHOOSE]};
        {Failure, Code, _} -> {Failure, Code, [Context || Context =/= ?CHOOSE]}
    end.
%% A termination, and the address and port that the gateway chose for it.
member({addReply, {_, [T], [{mediaDescriptor, {_, _, {multiStream, [{_, 1, {_, _, {_, [Lines]}, _}}]}}}]}}) ->
    ["IN IP4 " ++ Host] = [Value || {_, "c", [Value], _} <- Lines],
    ["audio " ++ Rest] = [Value || {_, "m", [Value], _} <- Lines],
    {T, [Host, ":", hd(string:lexemes(Rest, " "))]}.
%% Sends a request, and waits for the answer, which may have an error anywhere.
ask(Actions, #gateway{connection = Connection}) ->
    {_, {Kind, Answer}} = megaco:call(Connection, Actions, []),
    case errors(Answer) of
        [] -> {case Kind of ok -> ok; error -> gone end, 0, Answer};
        [Code | _] -> {refused, Code, Answer}
    end.
errors({'ErrorDescriptor', Code, _}) -> [Code];
errors(T) when is_tuple(T) -> errors(tuple_to_list(T));
errors([Head | Tail]) -> errors(Head) ++ errors(Tail);
errors(_) -> [].
action(Context, Topology, Commands) -> {'ActionRequest', Context, Topology, ?NONE, Commands}.
command(Command) -> {'CommandRequest', Command, ?NONE, ?NONE}.
audit(T, Tokens) -> command({auditValueRequest, {'AuditRequest', T, {'AuditDescriptor', Tokens}}}).
amm(Word, T, Stream) ->
    command({Word, {'AmmRequest', [T], [{mediaDescriptor, {'MediaDescriptor', ?NONE, {oneStream, Stream}}}]}}).
mode(Mode) -> {'LocalControlDescriptor', Mode, ?NONE, ?NONE, []}.
sdp(Host, Port) ->
    Lines = [{"v", "0"}, {"c", "IN IP4 " ++ Host}, {"m", "audio " ++ Port ++ " RTP/AVP 0"}],
    {'LocalRemoteDescriptor', [[{'PropertyParm', Name, [Value], ?NONE} || {Name, Value} <- Lines]]}.
topology([], _) -> ?NONE;
topology(Triples, Terminations) ->
    Name = fun(all) -> ?ALL; (M) -> lists:nth(M, Terminations) end,
    {'ContextRequest', ?NONE, ?NONE, [{'TopologyRequest', Name(A), Name(B), How} || {A, B, How} <- Triples]}.
say(Format, Values) -> io:format(Format ++ "~n", Values).
