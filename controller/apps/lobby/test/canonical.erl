%% Canonical values for a search: states that differ only in names, or in the numbers used so far, have the same value.
-module(canonical).

-export([least/2, ranked/2, new/0, alike/3]).

%% @doc Returns the least term that results from permuting the names of each group. A name can be any term, and is
%% replaced wherever it occurs, except in binaries.
-spec least(term(), Groups :: [[Name :: term()]]) -> term().
least(Term, Groups) ->
    lists:min([renamed(Term, Names) || Names <- exchanges(Groups)]).

exchanges([]) -> [#{}];
exchanges([Group | Groups]) ->
    [maps:merge(maps:from_list(lists:zip(Group, Order)), Others)
     || Order <- permutations(Group), Others <- exchanges(Groups)].

permutations([]) -> [[]];
permutations(List) -> [[One | Rest] || One <- List, Rest <- permutations(List -- [One])].

%% @doc Renumbers the numbers from Base on, in order. Numbers from Base to 2 Base - 1 become Base, Base + 1 and so on.
%% Numbers from 2 Base to 3 Base - 1 become 2 Base, 2 Base + 1 and so on, and likewise for each multiple.
-spec ranked(term(), Base :: pos_integer()) -> term().
ranked(Term, Base) ->
    renamed(Term, ranks(lists:usort(numbers(Term, Base, [])), Base)).

ranks(Numbers, Base) ->
    Kinds = maps:groups_from_list(fun(Number) -> Number div Base end, Numbers),
    maps:from_list([{Number, Rank} || {Kind, Of} <- maps:to_list(Kinds), {Rank, Number} <- lists:enumerate(Kind * Base, Of)]).

%% @doc Creates a table in which `alike/3' caches its results for parts.
-spec new() -> ets:tid().
new() -> ets:new(?MODULE, [public, {read_concurrency, true}, {write_concurrency, true}]).

%% @doc Returns equal values for lists whose `ranked' forms are equal, and different values for other lists. Most parts
%% of a state are the same as in the previous state, so the results for parts are cached.
-spec alike([term()], Base :: pos_integer(), Known :: ets:tid()) -> [{Shape :: binary(), Ranks :: [pos_integer()]}].
alike(Parts, Base, Known) ->
    Shapes = [shape(term_to_binary(Part), Base, Known) || Part <- Parts],
    Ranks = ranks(lists:usort(lists:append([Numbers || {_, Numbers} <- Shapes])), Base),
    [{Shape, [map_get(Number, Ranks) || Number <- Numbers]} || {Shape, Numbers} <- Shapes].

%% Returns a part's ranked form, and its numbers in order.
shape(Packed, Base, Known) ->
    Key = erlang:md5(Packed),
    case ets:lookup(Known, Key) of
        [{_, Shape, Numbers}] -> {Shape, Numbers};
        [] ->
            Part = binary_to_term(Packed),
            Numbers = lists:usort(numbers(Part, Base, [])),
            Shape = erlang:md5(term_to_binary(renamed(Part, ranks(Numbers, Base)), [deterministic])),
            true = ets:insert(Known, {Key, Shape, Numbers}),
            {Shape, Numbers}
    end.

numbers(Number, Base, Found) when is_integer(Number), Number >= Base -> [Number | Found];
numbers([Head | Tail], Base, Found) -> numbers(Tail, Base, numbers(Head, Base, Found));
numbers(Tuple, Base, Found) when is_tuple(Tuple) -> numbers(tuple_to_list(Tuple), Base, Found);
numbers(Map, Base, Found) when is_map(Map) -> numbers(maps:to_list(Map), Base, Found);
numbers(_, _, Found) -> Found.

renamed(Term, Names) when is_map_key(Term, Names) -> map_get(Term, Names);
renamed([Head | Tail], Names) -> [renamed(Head, Names) | renamed(Tail, Names)];
renamed(Tuple, Names) when is_tuple(Tuple) -> list_to_tuple(renamed(tuple_to_list(Tuple), Names));
renamed(Map, Names) when is_map(Map) -> maps:from_list(renamed(maps:to_list(Map), Names));
renamed(Term, _) -> Term.
