-module(lobby_rtpengine_tests).

-include_lib("eunit/include/eunit.hrl").

%% If nothing can be sent, as while the network is down, requests fail, and the process that checks rtpengine continues.
%% The kernel refuses to send to this address.
nothing_can_be_sent_test_() -> {timeout, 60, fun() ->
    ok = application:set_env(lobby, rtpengine, {{255, 255, 255, 255}, 2223}),
    {ok, Pid} = lobby_rtpengine:start_link({{255, 255, 255, 255}, 2223}),
    ok = lobby_rtpengine:ask(tag, #{command => ping}),
    ?assertEqual({error, no_relay}, receive {rtpengine, tag, Result} -> Result after 30000 -> no_answer end),
    ?assert(is_process_alive(Pid)),
    ?assertEqual(lost, lobby_rtpengine:state()),
    true = unlink(Pid),
    exit(Pid, kill),
    ok = application:unset_env(lobby, rtpengine),
    ignore = lobby_rtpengine:start_link(none)
end}.

%% If a call's offer arrives after the call was deleted, the call is deleted again.
a_late_offer_test_() -> {timeout, 120, fun() ->
    Relay = rtpengine:start(),
    ok = application:set_env(lobby, rtpengine, rtpengine:address(Relay)),
    {_, Sdp} = rtpengine:offer(Relay),
    Asked = fun(Request) ->
        ok = lobby_rtpengine:ask(tag, Request#{'call-id' => <<"late">>}),
        receive {rtpengine, tag, Result} -> Result end
    end,
    {error, _} = Asked(#{command => delete}),
    {ok, _} = Asked(#{command => offer, 'from-tag' => web, sdp => Sdp}),
    ?assertEqual([<<"late">>], rtpengine:calls(Relay)),
    lobby_case:until(fun() -> rtpengine:calls(Relay) =:= [] end),
    ok = application:unset_env(lobby, rtpengine)
end}.
