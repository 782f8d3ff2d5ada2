(* Random, version 1.0: numbers that look random, the same ones for the same seed.

     seed n        a generator; n and n + 2147483646 give the same one
     next g        a number from 1 to 2147483646, and the generator after it
     below n g     a number from 0 to n - 1, and the generator after it; Invalid_argument "below" if n
                   isn't from 1 to 2147483646

   It is the linear congruential generator of Park and Miller: each number is the one before times 48271,
   modulo the prime 2147483647. `seed 0` begins with 48271. Nothing secret may hang on it.

   A program asks for it so. Programs that exchange generators write these lines alike:
     import Random : sig
       type t
       val seed : int -> t
       val next : t -> int * t
       val below : int -> t -> int * t
     end version 1.* like struct type t = int end by "std:random" *)
module Random : sig
  type t
  val seed : int -> t
  val next : t -> int * t
  val below : int -> t -> int * t
end version 1.0 =
struct
  type t = int
  val seed : int -> t =
    fun (n : int) ->
      let rest : int = n mod 2147483646 in if rest < 0 then rest + 2147483647 else rest + 1
  val next : t -> int * t =
    fun (g : t) -> let n : int = g * 48271 mod 2147483647 in (n, n)
  val below : int -> t -> int * t =
    fun (n : int) -> fun (g : t) ->
      if n < 1 || 2147483646 < n then raise (Invalid_argument "below") : int * t
      else match next g with ((x : int), (h : t)) -> ((x - 1) * n / 2147483646, h) end
end
