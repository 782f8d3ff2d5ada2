(* List_string, version 1.0: lists of strings.

     length all              how many items it has
     has x all               whether x is one of them
     index x all             the first place of x, from 0, None if it isn't there
     find test all           the first item for which `test` holds, None if there is none
     nth i all               the item at place i; Not_found if there is none
     reverse all             the last item first
     append first second     the items of `first`, and behind them those of `second`
     sort all                the items from the least to the greatest; equal ones stay
     fold step start all     `step` of what there is so far and each item, from the left: with two items
                             `step (step start x) y`
     map f all               what `f` gives for each item
     filter test all         the items for which `test` holds
     each f all              calls `f` for each item
     to_ints f all           what `f` gives for each item, a list of ints

   Functions are called from the left. `sort` merges, so n items take some n * log2 n applications.

   A program asks for it so, with those lines of the signature that it wants:
     import List_string : sig val sort : string list -> string list end version 1.* by "std:list_string" *)
module List_string : sig
  val length : string list -> int
  val has : string -> string list -> bool
  val index : string -> string list -> int option
  val find : (string -> bool) -> string list -> string option
  val nth : int -> string list -> string
  val reverse : string list -> string list
  val append : string list -> string list -> string list
  val sort : string list -> string list
  val fold : (string -> string -> string) -> string -> string list -> string
  val map : (string -> string) -> string list -> string list
  val filter : (string -> bool) -> string list -> string list
  val each : (string -> unit) -> string list -> unit
  val to_ints : (string -> int) -> string list -> int list
end version 1.0 =
struct
  val length : string list -> int =
    fun (all : string list) ->
      let rec count (at : int * string list) : int =
        match at with
          ((n : int), []) -> n
        | ((n : int), _ :: (rest : string list)) -> count (n + 1, rest)
        end in
      count (0, all)
  val find : (string -> bool) -> string list -> string option =
    fun (test : string -> bool) ->
      rec find (all : string list) : string option =
        match all with
          [] -> (None : string option)
        | (first : string) :: (rest : string list) -> if test first then Some first else find rest
        end
  val has : string -> string list -> bool =
    fun (x : string) ->
      rec has (all : string list) : bool =
        match all with
          [] -> false
        | (first : string) :: (rest : string list) -> first = x || has rest
        end
  val index : string -> string list -> int option =
    fun (x : string) -> fun (all : string list) ->
      let rec place (at : int * string list) : int option =
        match at with
          (_, []) -> (None : int option)
        | ((i : int), (first : string) :: (rest : string list)) ->
            if first = x then Some i else place (i + 1, rest)
        end in
      place (0, all)
  val nth : int -> string list -> string =
    fun (i : int) -> fun (all : string list) ->
      let rec from (at : int * string list) : string =
        match at with
          (_, []) -> raise Not_found : string
        | (0, (first : string) :: _) -> first
        | ((n : int), _ :: (rest : string list)) -> from (n - 1, rest)
        end in
      from (i, all)
  val reverse : string list -> string list =
    fun (all : string list) ->
      let rec turn (at : string list * string list) : string list =
        match at with
          ([], (done : string list)) -> done
        | ((first : string) :: (rest : string list), (done : string list)) -> turn (rest, first :: done)
        end in
      turn (all, ([] : string list))
  val append : string list -> string list -> string list =
    fun (first : string list) -> fun (second : string list) ->
      let rec append (all : string list) : string list =
        match all with
          [] -> second
        | (x : string) :: (rest : string list) -> x :: append rest
        end in
      append first

  (* Sorting merges runs by pairs, until one is left. *)
  val merge : string list * string list -> string list =
    rec merge (both : string list * string list) : string list =
      match both with
        ([], (b : string list)) -> b
      | ((a : string list), []) -> a
      | ((x : string) :: (more : string list), (y : string) :: (others : string list)) ->
          if y < x then y :: merge (x :: more, others) else x :: merge (more, y :: others)
      end
  val pairs : string list list -> string list list =
    rec pairs (runs : string list list) : string list list =
      match runs with
        (a : string list) :: (b : string list) :: (rest : string list list) -> merge (a, b) :: pairs rest
      | _ -> runs
      end
  val sort : string list -> string list =
    fun (all : string list) ->
      let rec singles (all : string list) : string list list =
        match all with
          [] -> ([] : string list list)
        | (first : string) :: (rest : string list) -> (first :: ([] : string list)) :: singles rest
        end in
      let rec whole (runs : string list list) : string list =
        match runs with
          [] -> ([] : string list)
        | (run : string list) :: [] -> run
        | _ -> whole (pairs runs)
        end in
      whole (singles all)

  val fold : (string -> string -> string) -> string -> string list -> string =
    fun (step : string -> string -> string) -> fun (start : string) -> fun (all : string list) ->
      let rec fold (at : string * string list) : string =
        match at with
          ((so_far : string), []) -> so_far
        | ((so_far : string), (first : string) :: (rest : string list)) -> fold (step so_far first, rest)
        end in
      fold (start, all)
  val map : (string -> string) -> string list -> string list =
    fun (f : string -> string) ->
      rec map (all : string list) : string list =
        match all with
          [] -> all
        | (first : string) :: (rest : string list) -> f first :: map rest
        end
  val filter : (string -> bool) -> string list -> string list =
    fun (test : string -> bool) ->
      rec filter (all : string list) : string list =
        match all with
          [] -> all
        | (first : string) :: (rest : string list) ->
            if test first then first :: filter rest else filter rest
        end
  val each : (string -> unit) -> string list -> unit =
    fun (f : string -> unit) ->
      rec each (all : string list) : unit =
        match all with
          [] -> ()
        | (first : string) :: (rest : string list) -> f first; each rest
        end
  val to_ints : (string -> int) -> string list -> int list =
    fun (f : string -> int) ->
      rec map (all : string list) : int list =
        match all with
          [] -> ([] : int list)
        | (first : string) :: (rest : string list) -> f first :: map rest
        end
end
