-module(lobby_json_tests).

-include_lib("eunit/include/eunit.hrl").

objects_test() ->
    ?assertEqual(#{<<"a">> => 1}, lobby_json:decode(<<"{\"a\": 1}">>)),
    ?assertThrow({invalid, <<"the body is not a JSON object">>}, lobby_json:decode(<<"[1]">>)),
    ?assertThrow({invalid, <<"the body has the key \"a\" twice">>}, lobby_json:decode(<<"{\"a\": 1, \"b\": {}, \"a\": 1}">>)),
    ?assertThrow({invalid, <<"the body is not JSON: ", _/binary>>}, lobby_json:decode(<<"{">>)),
    ?assertThrow({invalid, <<"the body is not JSON: ", _/binary>>}, lobby_json:decode(<<"{\"a\": \"", 255, "\"}">>)).

rules_test() ->
    Rule = #{<<"hears">> => false, <<"talker">> => #{<<"member">> => <<"x">>}, <<"listener">> => <<"everyone">>},
    ?assertEqual([{deny, {member, <<"x">>}, everyone}], lobby_json:rules(#{<<"rules">> => [Rule]})),
    ?assertEqual([{allow, {role, <<"x">>}, everyone}],
                 lobby_json:rules(#{<<"rules">> => [Rule#{<<"hears">> := true, <<"talker">> := #{<<"role">> => <<"x">>}}]})),
    ?assertEqual(lobby_rules:preset(coaching), lobby_json:rules(#{<<"preset">> => <<"coaching">>})),
    ?assertThrow({invalid, <<"\"preset\" must be ", _/binary>>}, lobby_json:rules(#{<<"preset">> => <<"party">>})),
    ?assertThrow({invalid, <<"\"rules\" or", _/binary>>}, lobby_json:rules(#{})),
    [?assertThrow({invalid, <<"a rule must be", _/binary>>}, lobby_json:rules(#{<<"rules">> => [Wrong]}))
     || Wrong <- [1, #{}, maps:remove(<<"hears">>, Rule), Rule#{<<"hears">> := 1}, Rule#{<<"talker">> := <<"nobody">>},
                  Rule#{<<"talker">> := #{}}, Rule#{<<"talker">> := #{<<"role">> => 1}},
                  Rule#{<<"listener">> := #{<<"role">> => <<"a">>, <<"member">> => <<"b">>}},
                  Rule#{<<"listener">> := #{<<"role">> => binary:copy(<<"a">>, 33)}}]].

texts_test() ->
    ?assertEqual(<<"x">>, lobby_json:text(<<"role">>, #{<<"role">> => <<"x">>})),
    [?assertThrow({invalid, <<"\"role\" must be a string", _/binary>>}, lobby_json:text(<<"role">>, Wrong))
     || Wrong <- [#{}, #{<<"role">> => 1}, #{<<"role">> => <<>>}, #{<<"role">> => binary:copy(<<"a">>, 33)}]].

flags_test() ->
    ?assertEqual([true, false, false], [lobby_json:flag(<<"door">>, O) || O <- [#{<<"door">> => true}, #{<<"door">> => false}, #{}]]),
    ?assertThrow({invalid, <<"\"door\" must be true or false">>}, lobby_json:flag(<<"door">>, #{<<"door">> => 1})).

%% One caller's name must not break the description of the room.
names_need_not_be_utf8_test() ->
    Room = lobby_json:room(<<"100">>, #{members => [{#{id => <<"x">>, role => <<"member">>, muted => false, direction => sendrecv}, none}],
                                        rules => [], flows => [], gateway => none, context => new, settings => #{}, sends => #{}},
                           #{<<"x">> => <<"Ren", 233>>}),
    #{<<"members">> := [#{<<"id">> := <<"x">>, <<"muted">> := false}], <<"gateway">> := null, <<"context">> := null} =
        jiffy:decode(lobby_json:encode(Room), [return_maps]).
