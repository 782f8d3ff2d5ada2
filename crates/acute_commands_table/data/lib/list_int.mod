(* List_int, version 1.0: lists of ints.

     length all              how many items it has
     has x all               whether x is one of them
     index x all             the first place of x, from 0, None if it isn't there
     find test all           the first item for which `test` holds, None if there is none
     nth i all               the item at place i; Not_found if there is none
     reverse all             the last item first
     append first second     the items of `first`, and behind them those of `second`
     sort all                the items from the least to the greatest; equal ones stay
     fold step start all     `step` of what there is so far and each item, from the left: with two items
                             `step (step start x) y`
     map f all               what `f` gives for each item
     filter test all         the items for which `test` holds
     each f all              calls `f` for each item
     to_strings f all        what `f` gives for each item, a list of strings
     range low high          the numbers from `low` to `high`, both among them; none if low is above high

   Functions are called from the left. `sort` merges, so n items take some n * log2 n applications.

   A program asks for it so, with those lines of the signature that it wants:
     import List_int : sig val sort : int list -> int list end version 1.* by "std:list_int" *)
module List_int : sig
  val length : int list -> int
  val has : int -> int list -> bool
  val index : int -> int list -> int option
  val find : (int -> bool) -> int list -> int option
  val nth : int -> int list -> int
  val reverse : int list -> int list
  val append : int list -> int list -> int list
  val sort : int list -> int list
  val fold : (int -> int -> int) -> int -> int list -> int
  val map : (int -> int) -> int list -> int list
  val filter : (int -> bool) -> int list -> int list
  val each : (int -> unit) -> int list -> unit
  val to_strings : (int -> string) -> int list -> string list
  val range : int -> int -> int list
end version 1.0 =
struct
  val length : int list -> int =
    fun (all : int list) ->
      let rec count (at : int * int list) : int =
        match at with
          ((n : int), []) -> n
        | ((n : int), _ :: (rest : int list)) -> count (n + 1, rest)
        end in
      count (0, all)
  val find : (int -> bool) -> int list -> int option =
    fun (test : int -> bool) ->
      rec find (all : int list) : int option =
        match all with
          [] -> (None : int option)
        | (first : int) :: (rest : int list) -> if test first then Some first else find rest
        end
  val has : int -> int list -> bool =
    fun (x : int) ->
      rec has (all : int list) : bool =
        match all with
          [] -> false
        | (first : int) :: (rest : int list) -> first = x || has rest
        end
  val index : int -> int list -> int option =
    fun (x : int) -> fun (all : int list) ->
      let rec place (at : int * int list) : int option =
        match at with
          (_, []) -> (None : int option)
        | ((i : int), (first : int) :: (rest : int list)) ->
            if first = x then Some i else place (i + 1, rest)
        end in
      place (0, all)
  val nth : int -> int list -> int =
    fun (i : int) -> fun (all : int list) ->
      let rec from (at : int * int list) : int =
        match at with
          (_, []) -> raise Not_found : int
        | (0, (first : int) :: _) -> first
        | ((n : int), _ :: (rest : int list)) -> from (n - 1, rest)
        end in
      from (i, all)
  val reverse : int list -> int list =
    fun (all : int list) ->
      let rec turn (at : int list * int list) : int list =
        match at with
          ([], (done : int list)) -> done
        | ((first : int) :: (rest : int list), (done : int list)) -> turn (rest, first :: done)
        end in
      turn (all, ([] : int list))
  val append : int list -> int list -> int list =
    fun (first : int list) -> fun (second : int list) ->
      let rec append (all : int list) : int list =
        match all with
          [] -> second
        | (x : int) :: (rest : int list) -> x :: append rest
        end in
      append first

  (* Sorting merges runs by pairs, until one is left. *)
  val merge : int list * int list -> int list =
    rec merge (both : int list * int list) : int list =
      match both with
        ([], (b : int list)) -> b
      | ((a : int list), []) -> a
      | ((x : int) :: (more : int list), (y : int) :: (others : int list)) ->
          if y < x then y :: merge (x :: more, others) else x :: merge (more, y :: others)
      end
  val pairs : int list list -> int list list =
    rec pairs (runs : int list list) : int list list =
      match runs with
        (a : int list) :: (b : int list) :: (rest : int list list) -> merge (a, b) :: pairs rest
      | _ -> runs
      end
  val sort : int list -> int list =
    fun (all : int list) ->
      let rec singles (all : int list) : int list list =
        match all with
          [] -> ([] : int list list)
        | (first : int) :: (rest : int list) -> (first :: ([] : int list)) :: singles rest
        end in
      let rec whole (runs : int list list) : int list =
        match runs with
          [] -> ([] : int list)
        | (run : int list) :: [] -> run
        | _ -> whole (pairs runs)
        end in
      whole (singles all)

  val fold : (int -> int -> int) -> int -> int list -> int =
    fun (step : int -> int -> int) -> fun (start : int) -> fun (all : int list) ->
      let rec fold (at : int * int list) : int =
        match at with
          ((so_far : int), []) -> so_far
        | ((so_far : int), (first : int) :: (rest : int list)) -> fold (step so_far first, rest)
        end in
      fold (start, all)
  val map : (int -> int) -> int list -> int list =
    fun (f : int -> int) ->
      rec map (all : int list) : int list =
        match all with
          [] -> all
        | (first : int) :: (rest : int list) -> f first :: map rest
        end
  val filter : (int -> bool) -> int list -> int list =
    fun (test : int -> bool) ->
      rec filter (all : int list) : int list =
        match all with
          [] -> all
        | (first : int) :: (rest : int list) ->
            if test first then first :: filter rest else filter rest
        end
  val each : (int -> unit) -> int list -> unit =
    fun (f : int -> unit) ->
      rec each (all : int list) : unit =
        match all with
          [] -> ()
        | (first : int) :: (rest : int list) -> f first; each rest
        end
  val to_strings : (int -> string) -> int list -> string list =
    fun (f : int -> string) ->
      rec map (all : int list) : string list =
        match all with
          [] -> ([] : string list)
        | (first : int) :: (rest : int list) -> f first :: map rest
        end
  val range : int -> int -> int list =
    fun (low : int) -> fun (high : int) ->
      let rec down (at : int * int list) : int list =
        match at with ((n : int), (done : int list)) ->
          if n = low then n :: done else down (n - 1, n :: done)
        end in
      if high < low then ([] : int list) else down (high, ([] : int list))
end
