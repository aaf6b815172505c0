%% A relay between a controller and a gateway. It loses, duplicates and delays datagrams in both directions, and can
%% reject, drop or copy requests.
-module(relay).

-export([start/2, address/1, refuse/2, drop/2, copy/2, copies/1, pass/1, release/1, wait_for_acknowledgements/2]).

start(Gateway, Faults) ->
    Parent = self(),
    Pid = spawn_link(fun() ->
        {ok, Socket} = gen_udp:open(0, [binary, {ip, {127, 0, 0, 1}}, {active, true}, {buffer, 65536}]),
        {ok, Port} = inet:port(Socket),
        Parent ! {self(), Port},
        loop(Socket, Gateway, Faults, #{})
    end),
    receive {Pid, Port} -> {Pid, Port} end.

address({_, Port}) -> {{127, 0, 0, 1}, Port}.

%% Rejects requests that contain this text, or all texts of a list, with error 510. They don't reach the gateway.
refuse({Pid, _}, Text) -> Pid ! {refuse, Text}, ok.

%% Drops requests that contain this text, or all texts of a list.
drop({Pid, _}, Text) -> Pid ! {drop, Text}, ok.

%% Keeps copies of requests with this text, even if they are dropped.
copy({Pid, _}, Text) -> Pid ! {copy, Text}, ok.

%% Returns the number of copies.
copies({Pid, _}) -> asked(copies, Pid).

asked(What, Pid) ->
    Pid ! {What, self()},
    receive {Pid, Answer} -> Answer end.

%% Lets all requests reach the gateway again.
pass({Pid, _}) -> Pid ! pass, ok.

%% Waits until all replies before the call are acknowledged, which happens after the quiet time. The acknowledgements
%% are copied, too.
wait_for_acknowledgements(Quiet, Relay) ->
    timer:sleep(Quiet),
    ok = copy(Relay, <<"K{">>),
    Before = copies(Relay),
    _ = lobby_case:until(fun() -> copies(Relay) >= Before + 2 end),
    pass(Relay).

%% Sends all copies to the gateway. The gateway reads them before all later requests.
release({Pid, _}) -> asked(release, Pid).

%% Each controller has its own socket to the gateway.
loop(Socket, Gateway = {GatewayAddress, GatewayPort}, Faults, Sockets) ->
    receive
        {refuse, Text} ->
            loop(Socket, Gateway, Faults#{refuse => Text}, Sockets);
        {drop, Text} ->
            loop(Socket, Gateway, Faults#{drop => Text}, Sockets);
        {copy, Text} ->
            loop(Socket, Gateway, Faults#{copy => Text}, Sockets);
        {copies, From} ->
            From ! {self(), length(maps:get(copies, Faults, []))},
            loop(Socket, Gateway, Faults, Sockets);
        pass ->
            loop(Socket, Gateway, maps:without([refuse, drop, copy], Faults), Sockets);
        {release, From} ->
            _ = [ok = gen_udp:send(Out, GatewayAddress, GatewayPort, Copy)
                 || {Out, Copy} <- lists:reverse(maps:get(copies, Faults, []))],
            From ! {self(), ok},
            loop(Socket, Gateway, Faults, Sockets);
        {udp, Socket, Address, Port, Datagram} ->
            {Out, Sockets1} = out({Address, Port}, Sockets),
            case {has(refuse, Datagram, Faults), has(drop, Datagram, Faults)} of
                {true, _} -> faulty(Faults, {send, Socket, Address, Port, refusal(Datagram, GatewayPort)});
                {_, true} -> ok;
                {_, _} -> faulty(Faults, {send, Out, GatewayAddress, GatewayPort, Datagram})
            end,
            Copies = [{Out, Datagram} || has(copy, Datagram, Faults)] ++ maps:get(copies, Faults, []),
            loop(Socket, Gateway, Faults#{copies => Copies}, Sockets1);
        {udp, Out, _, _, Datagram} ->
            #{Out := {Address, Port}} = Sockets,
            faulty(Faults, {send, Socket, Address, Port, Datagram}),
            loop(Socket, Gateway, Faults, Sockets);
        {send, From, Address, Port, Datagram} ->
            ok = gen_udp:send(From, Address, Port, Datagram),
            loop(Socket, Gateway, Faults, Sockets)
    end.

has(Key, Request, Faults) ->
    case Faults of
        #{Key := Texts} when is_list(Texts) -> lists:all(fun(Text) -> binary:match(Request, Text) =/= nomatch end, Texts);
        #{Key := Text} -> binary:match(Request, Text) =/= nomatch;
        #{} -> false
    end.

refusal(Request, Port) ->
    {match, [Number]} = re:run(Request, "T=(\\d+)", [{capture, all_but_first, list}]),
    io_lib:format("!/1 [127.0.0.1]:~b P=~s{ER=510{}}", [Port, Number]).

out(Controller, Sockets) ->
    case Sockets of
        #{Controller := Out} -> {Out, Sockets};
        #{} ->
            {ok, Out} = gen_udp:open(0, [binary, {ip, {127, 0, 0, 1}}, {active, true}, {buffer, 65536}]),
            {Out, Sockets#{Controller => Out, Out => Controller}}
    end.

faulty(#{lose := Lose, double := Double, delay := Delay}, Message) ->
    Copies = case rand:uniform() of
        X when X < Lose -> 0;
        X when X < Lose + Double -> 2;
        _ -> 1
    end,
    [erlang:send_after(rand:uniform(Delay) - 1, self(), Message) || _ <- lists:seq(1, Copies)].
