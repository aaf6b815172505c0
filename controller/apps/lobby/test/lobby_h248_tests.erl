-module(lobby_h248_tests).

-include_lib("eunit/include/eunit.hrl").

-define(HERE, {17, 2945}).

%% Returns a request as text, in lower case and without blanks.
text(Action) ->
    Text = lobby_h248:request(?HERE, 7, Action),
    re:replace(string:lowercase(Text), "[ \t]", "", [global, {return, list}]).

contains(Part, Action) ->
    ?assertNotEqual(nomatch, string:find(text(Action), Part)).

the_head_names_the_sender_test() ->
    ?assertMatch("!/1<17.lobby>:2945" ++ _, text(#{context => null, commands => [{audit, root, []}]})),
    %% A request of an earlier release is repeated with its original sender.
    Earlier = lobby_h248:request({{127, 0, 0, 1}, 2945}, 7, #{context => null, commands => [{audit, root, []}]}),
    ?assertMatch(<<"!/1 [127.0.0.1]:2945\n", _/binary>>, Earlier).

a_new_context_is_chosen_by_the_gateway_test() ->
    Media = {{{10, 1, 2, 3}, 4000}, pcma},
    Add = #{context => new, commands => [{add, #{mode => sendRecv, local => pcma, remote => Media}}]},
    contains("t=7{c=${a=${m{", Add),
    contains("mo=sr", Add),
    contains("c=inip4$\r\nm=audio$rtp/avp8", Add),
    contains("c=inip410.1.2.3\r\nm=audio4000rtp/avp8", Add).

modes_are_the_gateways_test() ->
    contains("mo=rc", #{context => 1, commands => [{modify, 5, #{mode => recvOnly}}]}),
    contains("mo=so", #{context => 1, commands => [{modify, 5, #{mode => sendOnly}}]}),
    contains("mo=in", #{context => 1, commands => [{modify, 5, #{mode => inactive}}]}).

the_topology_stands_before_the_commands_test() ->
    contains("c=3{tp{rtp/1,rtp/2,is,rtp/1,*,bw,$,rtp/2,ow},av=rtp/1{at{}}}",
             #{context => 3, topology => [{1, 2, isolate}, {1, all, bothway}, {new, 2, oneway}],
               commands => [{audit, 1, []}]}).

optional_commands_test() ->
    contains("o-a=$", #{context => 3, commands => [{add_optional, #{mode => inactive}}]}),
    contains("o-s=rtp/9{at{}}", #{context => 3, commands => [{subtract_optional, 9}]}).

acknowledgement_test() ->
    Text = string:lowercase(lobby_h248:acknowledgement(?HERE, [4, 5, 9])),
    ?assertNotEqual(nomatch, re:run(Text, "k\\s*{\\s*4,\\s*5,\\s*9\\s*}")).

%% Decodes a reply. Most texts below are replies in the gateway's profile.
answer(Text) ->
    lobby_h248:decode(iolist_to_binary(["MEGACO/1 [127.0.0.1]:2944\n", Text])).

added_test() ->
    ?assertEqual({ok, {reply, 1, {ok, [#{context => 4, results => [{add, 8, #{local => {{{127, 0, 0, 1}, 13000}, pcmu}}}]}]}}},
                 answer("Reply=1{Context=4{Add=RTP/8{Media{Stream=1{Local{v=0\nc=IN IP4 127.0.0.1\n"
                        "m=audio 13000 RTP/AVP 0\na=ptime:20\n}}}}}}")).

media_audited_test() ->
    ?assertEqual({ok, {reply, 2, {ok, [#{context => 1, results =>
                    [{audit, 1, #{mode => inactive, local => {{{127, 0, 0, 1}, 13000}, pcma},
                                  remote => {{{10, 0, 0, 9}, 40000}, pcmu}}}]}]}}},
                 answer("Reply=2{Context=1{AuditValue=RTP/1{Media{Stream=1{LocalControl{Mode=Inactive,nt/jit=80},"
                        "Local{v=0\nc=IN IP4 127.0.0.1\nm=audio 13000 RTP/AVP 8\na=ptime:20\n},"
                        "Remote{v=0\nc=IN IP4 10.0.0.9\nm=audio 40000 RTP/AVP 0\na=ptime:20\n}}}}}}")).

statistics_test() ->
    ?assertEqual({ok, {reply, 3, {ok, [#{context => 1, results =>
                    [{audit, 1, #{statistics => #{<<"rtp/ps">> => 5, <<"rtp/pr">> => 0}}}]}]}}},
                 answer("Reply=3{Context=1{AuditValue=RTP/1{Statistics{rtp/ps=5,rtp/pr=0}}}}")).

topology_audited_test() ->
    ?assertEqual({ok, {reply, 3, {ok, [#{context => 1, results => [], topology => [{1, 2, isolate}, {1, 3, oneway}]}]}}},
                 answer("Reply=3{Context=1{Topology{RTP/1,RTP/2,Isolate,RTP/1,RTP/3,Oneway}}}")).

errors_test() ->
    ?assertEqual({ok, {reply, 4, {ok, [#{context => 1, results => [{add, new, {error, 515}}, {audit, 9, {error, 430}}]}]}}},
                 answer("Reply=4{Context=1{Add=${Error=515{\"x\"}},AuditValue=RTP/9{Error=430{\"x\"}}}}")),
    ?assertEqual({ok, {reply, 4, {ok, [#{context => 7, results => [], error => 411}]}}},
                 answer("Reply=4{Context=7{Error=411{\"unknown context\"}}}")),
    ?assertEqual({ok, {reply, 4, {error, 533}}}, answer("Reply=4{Error=533{\"reply too long\"}}")),
    ?assertEqual({ok, {error, 400}}, answer("Error=400{\"syntax\"}")).

%% The gateway runs nothing after a guard that fails.
guarded_test() ->
    Text = lobby_h248:request(?HERE, 7, #{context => 4, commands => [{subtract, all}], guard => {1, 2}}),
    ?assertMatch({match, _}, re:run(Text, "C=1\\{AV=RTP/2\\{AT\\{\\}\\}\\},C=4\\{S=", [caseless])),
    ?assertEqual({ok, {reply, 7, {ok, [#{context => 1, results => [{audit, 2, #{}}]}, #{context => 4, results => [{subtract, 5, #{}}]}]}}},
                 answer("Reply=7{Context=1{AuditValue=RTP/2},Context=4{Subtract=RTP/5}}")),
    ?assertEqual({ok, {reply, 7, {ok, [#{context => 1, results => [{audit, 2, {error, 411}}]}]}}},
                 answer("Reply=7{Context=1{AuditValue=RTP/2{Error=411{\"unknown context\"}}}}")).

not_understood_test() ->
    [?assertEqual({error, not_understood}, lobby_h248:decode(Text))
     || Text <- [<<>>, <<"hello">>, <<"MEGACO/1 [127.0.0.1]:2944\nReply=4{Context=1}">>,
                 <<"MEGACO/1 [127.0.0.1]:2944\nTransaction=1{Context=1{Subtract=*}}">>]].

%% A reply that the gateway would never write must not crash the process that reads it.
odd_parts_are_left_out_test() ->
    ?assertEqual({ok, {reply, 1, {ok, [#{context => 4, results => [{add, unknown, #{}}]}]}}},
                 answer("Reply=1{Context=4{Add=A/b{Media{Stream=1{Local{v=0\nm=audio x RTP/AVP 99\n}}}}}}")),
    ?assertMatch({ok, {reply, 1, {ok, [#{results := [{audit, 1, #{statistics := #{}}}]}]}}},
                 answer("Reply=1{Context=4{AuditValue=RTP/1{Statistics{rtp/ps=many}}}}")),
    ?assertMatch({ok, {reply, 1, {ok, [#{results := [{other, unknown, #{}}]}]}}},
                 answer("Reply=1{Context=4{Notify=RTP/1}}")).
