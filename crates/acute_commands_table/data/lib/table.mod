(* Table, version 1.0: a table from strings to strings.

     empty                  the table without keys
     put (key, value) t     t with that value for the key, and no other one for it
     get key t              the key's value, None if the key isn't there
     remove key t           t without the key; t itself if the key isn't there
     size t                 how many keys it has
     items t                the keys with their values, by their keys, the least first
     of_items all           the table of these; of two values for one key the later one
     fold step start t      `step` of what there is so far, a key and its value, by the keys: with two
                            keys `step (step start k v) l w`

   A type can't speak of itself here, so there is no tree of any height. The table is a list of at most
   three levels: the items by their keys, cut into leaves of at most 32, which are cut into pages of at
   most 32 leaves. The list of the pages may have any length. Each leaf and each page has beside it its
   length and a bound: none of its keys is greater, and all keys after it are. What gets longer than 32
   is cut into halves. What gets empty goes; nothing is put together again.
   A `get` walks over the pages, one page and one leaf, and a `put` makes that way anew. With n keys put
   in and none removed, a `get` makes at most 70 + n / 256 applications and a `put` at most 102 + n / 256;
   with keys by chance both make some 30 + n / 1000.

   A program asks for it so. Programs that exchange tables write these lines alike:
     import Table : sig
       type t
       val empty : t
       val put : string * string -> t -> t
       val get : string -> t -> string option
       val remove : string -> t -> t
       val size : t -> int
       val items : t -> (string * string) list
       val of_items : (string * string) list -> t
       val fold : (string -> string -> string -> string) -> string -> t -> string
     end version 1.*
       like struct type t = int * (string * int * (string * int * (string * string) list) list) list end
       by "std:table" *)
module Table : sig
  type t
  val empty : t
  val put : string * string -> t -> t
  val get : string -> t -> string option
  val remove : string -> t -> t
  val size : t -> int
  val items : t -> (string * string) list
  val of_items : (string * string) list -> t
  val fold : (string -> string -> string -> string) -> string -> t -> string
end version 1.0 =
struct
  type leaf = (string * string) list
  type page = (string * int * leaf) list
  type book = (string * int * page) list
  type t = int * book
  val empty : t = (0, ([] : book))
  val size : t -> int = fun (table : t) -> match table with ((size : int), _) -> size end

  val get_leaf : string -> leaf -> string option =
    fun (key : string) ->
      rec go (leaf : leaf) : string option =
        match leaf with
          [] -> (None : string option)
        | ((other : string), (value : string)) :: (rest : leaf) ->
            if other < key then go rest
            else if other = key then Some value
            else (None : string option)
        end
  val get_page : string -> page -> string option =
    fun (key : string) ->
      rec go (page : page) : string option =
        match page with
          [] -> (None : string option)
        | ((bound : string), _, (leaf : leaf)) :: (rest : page) ->
            if bound < key then go rest else get_leaf key leaf
        end
  val get : string -> t -> string option =
    fun (key : string) -> fun (table : t) ->
      let rec go (book : book) : string option =
        match book with
          [] -> (None : string option)
        | ((bound : string), _, (page : page)) :: (rest : book) ->
            if bound < key then go rest else get_page key page
        end in
      match table with (_, (book : book)) -> go book end

  (* The first n items, the last key of them, and the others; and the same of leaves. *)
  val cut_leaf : int * leaf -> leaf * string * leaf =
    rec cut (at : int * leaf) : leaf * string * leaf =
      match at with
        (1, ((key : string), (value : string)) :: (rest : leaf)) ->
          ((key, value) :: ([] : leaf), key, rest)
      | ((n : int), (item : string * string) :: (rest : leaf)) ->
          match cut (n - 1, rest) with ((front : leaf), (bound : string), (back : leaf)) ->
            (item :: front, bound, back)
          end
      end
  val cut_page : int * page -> page * string * page =
    rec cut (at : int * page) : page * string * page =
      match at with
        (1, ((bound : string), (n : int), (leaf : leaf)) :: (rest : page)) ->
          ((bound, n, leaf) :: ([] : page), bound, rest)
      | ((n : int), (node : string * int * leaf) :: (rest : page)) ->
          match cut (n - 1, rest) with ((front : page), (bound : string), (back : page)) ->
            (node :: front, bound, back)
          end
      end

  (* With how many keys more there are then, 0 or 1; of a page with how many leaves more, too. *)
  val put_leaf : string * string -> leaf -> leaf * int =
    fun (item : string * string) ->
      match item with ((key : string), _) ->
        rec go (leaf : leaf) : leaf * int =
          match leaf with
            [] -> (item :: leaf, 1)
          | ((other : string), (value : string)) :: (rest : leaf) ->
              if other < key then
                match go rest with ((done : leaf), (more : int)) -> ((other, value) :: done, more) end
              else if other = key then (item :: rest, 0)
              else (item :: leaf, 1)
          end
      end
  val put_page : string * string -> page -> page * int * int =
    fun (item : string * string) ->
      match item with ((key : string), _) ->
        rec go (page : page) : page * int * int =
          match page with
            [] -> ((key, 1, item :: ([] : leaf)) :: page, 1, 1)
          | ((bound : string), (n : int), (leaf : leaf)) :: (rest : page) ->
              if bound < key && (match rest with [] -> false | _ -> true end) then
                match go rest with ((done : page), (leaves : int), (more : int)) ->
                  ((bound, n, leaf) :: done, leaves, more)
                end
              else
                match put_leaf item leaf with ((new : leaf), (more : int)) ->
                  let last : string = if bound < key then key else bound in
                  let size : int = n + more in
                  if size < 33 then ((last, size, new) :: rest, 0, more)
                  else
                    match cut_leaf (16, new) with ((front : leaf), (middle : string), (back : leaf)) ->
                      ((middle, 16, front) :: (last, 17, back) :: rest, 1, more)
                    end
                end
          end
      end
  val put : string * string -> t -> t =
    fun (item : string * string) -> fun (table : t) ->
      match item with ((key : string), _) ->
        let rec go (book : book) : book * int =
          match book with
            [] -> ((key, 1, (key, 1, item :: ([] : leaf)) :: ([] : page)) :: book, 1)
          | ((bound : string), (n : int), (page : page)) :: (rest : book) ->
              if bound < key && (match rest with [] -> false | _ -> true end) then
                match go rest with ((done : book), (more : int)) -> ((bound, n, page) :: done, more) end
              else
                match put_page item page with ((new : page), (leaves : int), (more : int)) ->
                  let last : string = if bound < key then key else bound in
                  let size : int = n + leaves in
                  if size < 33 then ((last, size, new) :: rest, more)
                  else
                    match cut_page (16, new) with ((front : page), (middle : string), (back : page)) ->
                      ((middle, 16, front) :: (last, 17, back) :: rest, more)
                    end
                end
          end in
        match table with ((size : int), (book : book)) ->
          match go book with ((new : book), (more : int)) -> (size + more, new) end
        end
      end

  (* The key is there; of a page with how many leaves fewer there are then. *)
  val cut_out : string -> leaf -> leaf =
    fun (key : string) ->
      rec go (leaf : leaf) : leaf =
        match leaf with
          [] -> leaf
        | ((other : string), (value : string)) :: (rest : leaf) ->
            if other < key then (other, value) :: go rest else rest
        end
  val remove_page : string -> page -> page * int =
    fun (key : string) ->
      rec go (page : page) : page * int =
        match page with
          [] -> (page, 0)
        | ((bound : string), (n : int), (leaf : leaf)) :: (rest : page) ->
            if bound < key then
              match go rest with ((done : page), (fewer : int)) -> ((bound, n, leaf) :: done, fewer) end
            else if n = 1 then (rest, 1)
            else ((bound, n - 1, cut_out key leaf) :: rest, 0)
        end
  val remove : string -> t -> t =
    fun (key : string) -> fun (table : t) ->
      let rec go (book : book) : book =
        match book with
          [] -> book
        | ((bound : string), (n : int), (page : page)) :: (rest : book) ->
            if bound < key then (bound, n, page) :: go rest
            else
              match remove_page key page with ((new : page), (fewer : int)) ->
                if n = fewer then rest else (bound, n - fewer, new) :: rest
              end
        end in
      match get key table with
        None -> table
      | Some _ -> match table with ((size : int), (book : book)) -> (size - 1, go book) end
      end

  (* The items of a leaf, of a page, in front of others. *)
  val with_leaf : leaf * leaf -> leaf =
    rec go (both : leaf * leaf) : leaf =
      match both with
        ([], (others : leaf)) -> others
      | ((item : string * string) :: (rest : leaf), (others : leaf)) -> item :: go (rest, others)
      end
  val with_page : page * leaf -> leaf =
    rec go (both : page * leaf) : leaf =
      match both with
        ([], (others : leaf)) -> others
      | ((_, _, (leaf : leaf)) :: (rest : page), (others : leaf)) -> with_leaf (leaf, go (rest, others))
      end
  val items : t -> (string * string) list =
    fun (table : t) ->
      let rec go (book : book) : leaf =
        match book with
          [] -> ([] : leaf)
        | (_, _, (page : page)) :: (rest : book) -> with_page (page, go rest)
        end in
      match table with (_, (book : book)) -> go book end
  val of_items : (string * string) list -> t =
    fun (all : (string * string) list) ->
      let rec go (at : t * leaf) : t =
        match at with
          ((table : t), []) -> table
        | ((table : t), (item : string * string) :: (rest : leaf)) -> go (put item table, rest)
        end in
      go (empty, all)
  val fold : (string -> string -> string -> string) -> string -> t -> string =
    fun (step : string -> string -> string -> string) -> fun (start : string) -> fun (table : t) ->
      let rec go (at : string * leaf) : string =
        match at with
          ((so_far : string), []) -> so_far
        | ((so_far : string), ((key : string), (value : string)) :: (rest : leaf)) ->
            go (step so_far key value, rest)
        end in
      go (start, items table)
end
