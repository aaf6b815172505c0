-module(lobby_placement_tests).

-include_lib("eunit/include/eunit.hrl").

load(Terminations, Contexts) ->
    #{terminations => Terminations, contexts => Contexts, max_terminations => 10, max_contexts => 2, draining => false}.

ranked(Members, Prefer, Gateways) -> lobby_placement:ranked(Members, Prefer, [{{G, 1}, Load} || {G, Load} <- Gateways]).

the_emptiest_is_the_first_test() ->
    ?assertEqual([{b, 1}, {a, 1}, {c, 1}], ranked(1, none, [{a, load(3, 0)}, {b, load(2, 1)}, {c, load(4, 0)}])).

all_members_have_to_fit_test() ->
    ?assertEqual([{a, 1}], ranked(7, none, [{a, load(3, 0)}])),
    ?assertEqual([], ranked(8, none, [{a, load(3, 0)}])).

a_context_has_to_be_free_test() ->
    ?assertEqual([{b, 1}], ranked(1, none, [{a, load(0, 2)}, {b, load(9, 1)}])).

%% A member who moves to the preferred gateway may already have a seat there.
what_is_preferred_is_asked_first_test() ->
    ?assertEqual([{a, 1}, {b, 1}], ranked(1, {a, 1}, [{a, load(10, 2)}, {b, load(2, 0)}])),
    %% The preferred gateway has been lost.
    ?assertEqual([{b, 1}], ranked(1, {a, 2}, [{b, load(2, 0)}])).

no_gateway_test() ->
    ?assertEqual([], ranked(0, none, [])).
