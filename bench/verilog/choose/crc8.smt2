(set-logic QF_BV)
(define-sort |top_s| () (_ BitVec 65))
(define-fun |top_is| ((state |top_s|)) Bool (= ((_ extract 0 0) state) #b1))
(define-fun |top#0| ((state |top_s|)) (_ BitVec 64) ((_ extract 64 1) state)) ; \data
(define-fun |top_n data| ((state |top_s|)) (_ BitVec 64) (|top#0| state))
(define-fun |top#1| ((state |top_s|)) (_ BitVec 1) (bvxor ((_ extract 63 63) (|top#0| state)) ((_ extract 62 62) (|top#0| state)))) ; $auto$opt_expr.cc:205:group_cell_inputs$210 [1]
(define-fun |top#2| ((state |top_s|)) (_ BitVec 2) (bvxor (concat (|top#1| state) ((_ extract 62 62) (|top#0| state))) (concat ((_ extract 61 61) (|top#0| state)) ((_ extract 61 61) (|top#0| state))))) ; $auto$opt_expr.cc:205:group_cell_inputs$213 [1:0]
(define-fun |top#3| ((state |top_s|)) (_ BitVec 2) (bvxor (concat ((_ extract 61 61) (|top#0| state)) ((_ extract 0 0) (|top#2| state))) (concat ((_ extract 60 60) (|top#0| state)) ((_ extract 60 60) (|top#0| state))))) ; { $auto$opt_expr.cc:205:group_cell_inputs$216 [0] $auto$opt_expr.cc:205:group_cell_inputs$216 [1] }
(define-fun |top#4| ((state |top_s|)) (_ BitVec 2) (bvxor (concat ((_ extract 60 60) (|top#0| state)) ((_ extract 1 1) (|top#3| state))) (concat ((_ extract 59 59) (|top#0| state)) ((_ extract 59 59) (|top#0| state))))) ; { $auto$opt_expr.cc:205:group_cell_inputs$219 [0] $auto$opt_expr.cc:205:group_cell_inputs$219 [1] }
(define-fun |top#5| ((state |top_s|)) (_ BitVec 2) (bvxor (concat ((_ extract 59 59) (|top#0| state)) ((_ extract 1 1) (|top#4| state))) (concat ((_ extract 58 58) (|top#0| state)) ((_ extract 58 58) (|top#0| state))))) ; { $auto$opt_expr.cc:205:group_cell_inputs$222 [0] $auto$opt_expr.cc:205:group_cell_inputs$222 [1] }
(define-fun |top#6| ((state |top_s|)) (_ BitVec 1) (bvxor ((_ extract 63 63) (|top#0| state)) ((_ extract 57 57) (|top#0| state)))) ; $auto$opt_expr.cc:205:group_cell_inputs$227
(define-fun |top#7| ((state |top_s|)) (_ BitVec 2) (bvxor (concat ((_ extract 58 58) (|top#0| state)) ((_ extract 1 1) (|top#5| state))) (concat (|top#6| state) (|top#6| state)))) ; { $auto$opt_expr.cc:205:group_cell_inputs$225 [0] $auto$opt_expr.cc:205:group_cell_inputs$225 [1] }
(define-fun |top#8| ((state |top_s|)) (_ BitVec 1) (bvxor (|top#1| state) ((_ extract 56 56) (|top#0| state)))) ; $auto$opt_expr.cc:205:group_cell_inputs$230
(define-fun |top#9| ((state |top_s|)) (_ BitVec 2) (bvxor (concat (|top#6| state) ((_ extract 1 1) (|top#7| state))) (concat (|top#8| state) (|top#8| state)))) ; { $auto$opt_expr.cc:205:group_cell_inputs$228 [0] $auto$opt_expr.cc:205:group_cell_inputs$228 [1] }
(define-fun |top#10| ((state |top_s|)) (_ BitVec 1) (bvxor ((_ extract 1 1) (|top#2| state)) ((_ extract 55 55) (|top#0| state)))) ; $auto$opt_expr.cc:205:group_cell_inputs$233
(define-fun |top#11| ((state |top_s|)) (_ BitVec 2) (bvxor (concat (|top#8| state) ((_ extract 1 1) (|top#9| state))) (concat (|top#10| state) (|top#10| state)))) ; { $auto$opt_expr.cc:205:group_cell_inputs$231 [0] $auto$opt_expr.cc:205:group_cell_inputs$231 [1] }
(define-fun |top#12| ((state |top_s|)) (_ BitVec 1) (bvxor ((_ extract 0 0) (|top#3| state)) ((_ extract 54 54) (|top#0| state)))) ; $auto$opt_expr.cc:205:group_cell_inputs$236
(define-fun |top#13| ((state |top_s|)) (_ BitVec 2) (bvxor (concat (|top#10| state) ((_ extract 1 1) (|top#11| state))) (concat (|top#12| state) (|top#12| state)))) ; { $auto$opt_expr.cc:205:group_cell_inputs$234 [0] $auto$opt_expr.cc:205:group_cell_inputs$234 [1] }
(define-fun |top#14| ((state |top_s|)) (_ BitVec 1) (bvxor ((_ extract 0 0) (|top#4| state)) ((_ extract 53 53) (|top#0| state)))) ; $auto$opt_expr.cc:205:group_cell_inputs$239
(define-fun |top#15| ((state |top_s|)) (_ BitVec 2) (bvxor (concat (|top#12| state) ((_ extract 1 1) (|top#13| state))) (concat (|top#14| state) (|top#14| state)))) ; { $auto$opt_expr.cc:205:group_cell_inputs$237 [0] $auto$opt_expr.cc:205:group_cell_inputs$237 [1] }
(define-fun |top#16| ((state |top_s|)) (_ BitVec 1) (bvxor ((_ extract 0 0) (|top#5| state)) ((_ extract 52 52) (|top#0| state)))) ; $auto$opt_expr.cc:205:group_cell_inputs$242
(define-fun |top#17| ((state |top_s|)) (_ BitVec 2) (bvxor (concat (|top#14| state) ((_ extract 1 1) (|top#15| state))) (concat (|top#16| state) (|top#16| state)))) ; { $auto$opt_expr.cc:205:group_cell_inputs$240 [0] $auto$opt_expr.cc:205:group_cell_inputs$240 [1] }
(define-fun |top#18| ((state |top_s|)) (_ BitVec 1) (bvxor ((_ extract 0 0) (|top#7| state)) ((_ extract 51 51) (|top#0| state)))) ; $auto$opt_expr.cc:205:group_cell_inputs$245
(define-fun |top#19| ((state |top_s|)) (_ BitVec 2) (bvxor (concat (|top#16| state) ((_ extract 1 1) (|top#17| state))) (concat (|top#18| state) (|top#18| state)))) ; { $auto$opt_expr.cc:205:group_cell_inputs$243 [0] $auto$opt_expr.cc:205:group_cell_inputs$243 [1] }
(define-fun |top#20| ((state |top_s|)) (_ BitVec 1) (bvxor ((_ extract 0 0) (|top#9| state)) ((_ extract 50 50) (|top#0| state)))) ; $auto$opt_expr.cc:205:group_cell_inputs$248
(define-fun |top#21| ((state |top_s|)) (_ BitVec 2) (bvxor (concat (|top#18| state) ((_ extract 1 1) (|top#19| state))) (concat (|top#20| state) (|top#20| state)))) ; { $auto$opt_expr.cc:205:group_cell_inputs$246 [0] $auto$opt_expr.cc:205:group_cell_inputs$246 [1] }
(define-fun |top#22| ((state |top_s|)) (_ BitVec 1) (bvxor ((_ extract 0 0) (|top#11| state)) ((_ extract 49 49) (|top#0| state)))) ; $auto$opt_expr.cc:205:group_cell_inputs$251
(define-fun |top#23| ((state |top_s|)) (_ BitVec 2) (bvxor (concat (|top#20| state) ((_ extract 1 1) (|top#21| state))) (concat (|top#22| state) (|top#22| state)))) ; { $auto$opt_expr.cc:205:group_cell_inputs$249 [0] $auto$opt_expr.cc:205:group_cell_inputs$249 [1] }
(define-fun |top#24| ((state |top_s|)) (_ BitVec 1) (bvxor ((_ extract 0 0) (|top#13| state)) ((_ extract 48 48) (|top#0| state)))) ; $auto$opt_expr.cc:205:group_cell_inputs$254
(define-fun |top#25| ((state |top_s|)) (_ BitVec 2) (bvxor (concat (|top#22| state) ((_ extract 1 1) (|top#23| state))) (concat (|top#24| state) (|top#24| state)))) ; { $auto$opt_expr.cc:205:group_cell_inputs$252 [0] $auto$opt_expr.cc:205:group_cell_inputs$252 [1] }
(define-fun |top#26| ((state |top_s|)) (_ BitVec 1) (bvxor ((_ extract 0 0) (|top#15| state)) ((_ extract 47 47) (|top#0| state)))) ; $auto$opt_expr.cc:205:group_cell_inputs$257
(define-fun |top#27| ((state |top_s|)) (_ BitVec 2) (bvxor (concat (|top#24| state) ((_ extract 1 1) (|top#25| state))) (concat (|top#26| state) (|top#26| state)))) ; { $auto$opt_expr.cc:205:group_cell_inputs$255 [0] $auto$opt_expr.cc:205:group_cell_inputs$255 [1] }
(define-fun |top#28| ((state |top_s|)) (_ BitVec 1) (bvxor ((_ extract 0 0) (|top#17| state)) ((_ extract 46 46) (|top#0| state)))) ; $auto$opt_expr.cc:205:group_cell_inputs$260
(define-fun |top#29| ((state |top_s|)) (_ BitVec 2) (bvxor (concat (|top#26| state) ((_ extract 1 1) (|top#27| state))) (concat (|top#28| state) (|top#28| state)))) ; { $auto$opt_expr.cc:205:group_cell_inputs$258 [0] $auto$opt_expr.cc:205:group_cell_inputs$258 [1] }
(define-fun |top#30| ((state |top_s|)) (_ BitVec 1) (bvxor ((_ extract 0 0) (|top#19| state)) ((_ extract 45 45) (|top#0| state)))) ; $auto$opt_expr.cc:205:group_cell_inputs$263
(define-fun |top#31| ((state |top_s|)) (_ BitVec 2) (bvxor (concat (|top#28| state) ((_ extract 1 1) (|top#29| state))) (concat (|top#30| state) (|top#30| state)))) ; { $auto$opt_expr.cc:205:group_cell_inputs$261 [0] $auto$opt_expr.cc:205:group_cell_inputs$261 [1] }
(define-fun |top#32| ((state |top_s|)) (_ BitVec 1) (bvxor ((_ extract 0 0) (|top#21| state)) ((_ extract 44 44) (|top#0| state)))) ; $auto$opt_expr.cc:205:group_cell_inputs$266
(define-fun |top#33| ((state |top_s|)) (_ BitVec 2) (bvxor (concat (|top#30| state) ((_ extract 1 1) (|top#31| state))) (concat (|top#32| state) (|top#32| state)))) ; { $auto$opt_expr.cc:205:group_cell_inputs$264 [0] $auto$opt_expr.cc:205:group_cell_inputs$264 [1] }
(define-fun |top#34| ((state |top_s|)) (_ BitVec 1) (bvxor ((_ extract 0 0) (|top#23| state)) ((_ extract 43 43) (|top#0| state)))) ; $auto$opt_expr.cc:205:group_cell_inputs$269
(define-fun |top#35| ((state |top_s|)) (_ BitVec 2) (bvxor (concat (|top#32| state) ((_ extract 1 1) (|top#33| state))) (concat (|top#34| state) (|top#34| state)))) ; { $auto$opt_expr.cc:205:group_cell_inputs$267 [0] $auto$opt_expr.cc:205:group_cell_inputs$267 [1] }
(define-fun |top#36| ((state |top_s|)) (_ BitVec 1) (bvxor ((_ extract 0 0) (|top#25| state)) ((_ extract 42 42) (|top#0| state)))) ; $auto$opt_expr.cc:205:group_cell_inputs$272
(define-fun |top#37| ((state |top_s|)) (_ BitVec 2) (bvxor (concat (|top#34| state) ((_ extract 1 1) (|top#35| state))) (concat (|top#36| state) (|top#36| state)))) ; { $auto$opt_expr.cc:205:group_cell_inputs$270 [0] $auto$opt_expr.cc:205:group_cell_inputs$270 [1] }
(define-fun |top#38| ((state |top_s|)) (_ BitVec 1) (bvxor ((_ extract 0 0) (|top#27| state)) ((_ extract 41 41) (|top#0| state)))) ; $auto$opt_expr.cc:205:group_cell_inputs$275
(define-fun |top#39| ((state |top_s|)) (_ BitVec 2) (bvxor (concat (|top#36| state) ((_ extract 1 1) (|top#37| state))) (concat (|top#38| state) (|top#38| state)))) ; { $auto$opt_expr.cc:205:group_cell_inputs$273 [0] $auto$opt_expr.cc:205:group_cell_inputs$273 [1] }
(define-fun |top#40| ((state |top_s|)) (_ BitVec 1) (bvxor ((_ extract 0 0) (|top#29| state)) ((_ extract 40 40) (|top#0| state)))) ; $auto$opt_expr.cc:205:group_cell_inputs$278
(define-fun |top#41| ((state |top_s|)) (_ BitVec 2) (bvxor (concat (|top#38| state) ((_ extract 1 1) (|top#39| state))) (concat (|top#40| state) (|top#40| state)))) ; { $auto$opt_expr.cc:205:group_cell_inputs$276 [0] $auto$opt_expr.cc:205:group_cell_inputs$276 [1] }
(define-fun |top#42| ((state |top_s|)) (_ BitVec 1) (bvxor ((_ extract 0 0) (|top#31| state)) ((_ extract 39 39) (|top#0| state)))) ; $auto$opt_expr.cc:205:group_cell_inputs$281
(define-fun |top#43| ((state |top_s|)) (_ BitVec 2) (bvxor (concat (|top#40| state) ((_ extract 1 1) (|top#41| state))) (concat (|top#42| state) (|top#42| state)))) ; { $auto$opt_expr.cc:205:group_cell_inputs$279 [0] $auto$opt_expr.cc:205:group_cell_inputs$279 [1] }
(define-fun |top#44| ((state |top_s|)) (_ BitVec 1) (bvxor ((_ extract 0 0) (|top#33| state)) ((_ extract 38 38) (|top#0| state)))) ; $auto$opt_expr.cc:205:group_cell_inputs$284
(define-fun |top#45| ((state |top_s|)) (_ BitVec 2) (bvxor (concat (|top#42| state) ((_ extract 1 1) (|top#43| state))) (concat (|top#44| state) (|top#44| state)))) ; { $auto$opt_expr.cc:205:group_cell_inputs$282 [0] $auto$opt_expr.cc:205:group_cell_inputs$282 [1] }
(define-fun |top#46| ((state |top_s|)) (_ BitVec 1) (bvxor ((_ extract 0 0) (|top#35| state)) ((_ extract 37 37) (|top#0| state)))) ; $auto$opt_expr.cc:205:group_cell_inputs$287
(define-fun |top#47| ((state |top_s|)) (_ BitVec 2) (bvxor (concat (|top#44| state) ((_ extract 1 1) (|top#45| state))) (concat (|top#46| state) (|top#46| state)))) ; { $auto$opt_expr.cc:205:group_cell_inputs$285 [0] $auto$opt_expr.cc:205:group_cell_inputs$285 [1] }
(define-fun |top#48| ((state |top_s|)) (_ BitVec 1) (bvxor ((_ extract 0 0) (|top#37| state)) ((_ extract 36 36) (|top#0| state)))) ; $auto$opt_expr.cc:205:group_cell_inputs$290
(define-fun |top#49| ((state |top_s|)) (_ BitVec 2) (bvxor (concat (|top#46| state) ((_ extract 1 1) (|top#47| state))) (concat (|top#48| state) (|top#48| state)))) ; { $auto$opt_expr.cc:205:group_cell_inputs$288 [0] $auto$opt_expr.cc:205:group_cell_inputs$288 [1] }
(define-fun |top#50| ((state |top_s|)) (_ BitVec 1) (bvxor ((_ extract 0 0) (|top#39| state)) ((_ extract 35 35) (|top#0| state)))) ; $auto$opt_expr.cc:205:group_cell_inputs$293
(define-fun |top#51| ((state |top_s|)) (_ BitVec 2) (bvxor (concat (|top#48| state) ((_ extract 1 1) (|top#49| state))) (concat (|top#50| state) (|top#50| state)))) ; { $auto$opt_expr.cc:205:group_cell_inputs$291 [0] $auto$opt_expr.cc:205:group_cell_inputs$291 [1] }
(define-fun |top#52| ((state |top_s|)) (_ BitVec 1) (bvxor ((_ extract 0 0) (|top#41| state)) ((_ extract 34 34) (|top#0| state)))) ; $auto$opt_expr.cc:205:group_cell_inputs$296
(define-fun |top#53| ((state |top_s|)) (_ BitVec 2) (bvxor (concat (|top#50| state) ((_ extract 1 1) (|top#51| state))) (concat (|top#52| state) (|top#52| state)))) ; { $auto$opt_expr.cc:205:group_cell_inputs$294 [0] $auto$opt_expr.cc:205:group_cell_inputs$294 [1] }
(define-fun |top#54| ((state |top_s|)) (_ BitVec 1) (bvxor ((_ extract 0 0) (|top#43| state)) ((_ extract 33 33) (|top#0| state)))) ; $auto$opt_expr.cc:205:group_cell_inputs$299
(define-fun |top#55| ((state |top_s|)) (_ BitVec 2) (bvxor (concat (|top#52| state) ((_ extract 1 1) (|top#53| state))) (concat (|top#54| state) (|top#54| state)))) ; { $auto$opt_expr.cc:205:group_cell_inputs$297 [0] $auto$opt_expr.cc:205:group_cell_inputs$297 [1] }
(define-fun |top#56| ((state |top_s|)) (_ BitVec 1) (bvxor ((_ extract 0 0) (|top#45| state)) ((_ extract 32 32) (|top#0| state)))) ; $auto$opt_expr.cc:205:group_cell_inputs$302
(define-fun |top#57| ((state |top_s|)) (_ BitVec 2) (bvxor (concat (|top#54| state) ((_ extract 1 1) (|top#55| state))) (concat (|top#56| state) (|top#56| state)))) ; { $auto$opt_expr.cc:205:group_cell_inputs$300 [0] $auto$opt_expr.cc:205:group_cell_inputs$300 [1] }
(define-fun |top#58| ((state |top_s|)) (_ BitVec 1) (bvxor ((_ extract 0 0) (|top#47| state)) ((_ extract 31 31) (|top#0| state)))) ; $auto$opt_expr.cc:205:group_cell_inputs$305
(define-fun |top#59| ((state |top_s|)) (_ BitVec 2) (bvxor (concat (|top#56| state) ((_ extract 1 1) (|top#57| state))) (concat (|top#58| state) (|top#58| state)))) ; { $auto$opt_expr.cc:205:group_cell_inputs$303 [0] $auto$opt_expr.cc:205:group_cell_inputs$303 [1] }
(define-fun |top#60| ((state |top_s|)) (_ BitVec 1) (bvxor ((_ extract 0 0) (|top#49| state)) ((_ extract 30 30) (|top#0| state)))) ; $auto$opt_expr.cc:205:group_cell_inputs$308
(define-fun |top#61| ((state |top_s|)) (_ BitVec 2) (bvxor (concat (|top#58| state) ((_ extract 1 1) (|top#59| state))) (concat (|top#60| state) (|top#60| state)))) ; { $auto$opt_expr.cc:205:group_cell_inputs$306 [0] $auto$opt_expr.cc:205:group_cell_inputs$306 [1] }
(define-fun |top#62| ((state |top_s|)) (_ BitVec 1) (bvxor ((_ extract 0 0) (|top#51| state)) ((_ extract 29 29) (|top#0| state)))) ; $auto$opt_expr.cc:205:group_cell_inputs$311
(define-fun |top#63| ((state |top_s|)) (_ BitVec 2) (bvxor (concat (|top#60| state) ((_ extract 1 1) (|top#61| state))) (concat (|top#62| state) (|top#62| state)))) ; { $auto$opt_expr.cc:205:group_cell_inputs$309 [0] $auto$opt_expr.cc:205:group_cell_inputs$309 [1] }
(define-fun |top#64| ((state |top_s|)) (_ BitVec 1) (bvxor ((_ extract 0 0) (|top#53| state)) ((_ extract 28 28) (|top#0| state)))) ; $auto$opt_expr.cc:205:group_cell_inputs$314
(define-fun |top#65| ((state |top_s|)) (_ BitVec 2) (bvxor (concat (|top#62| state) ((_ extract 1 1) (|top#63| state))) (concat (|top#64| state) (|top#64| state)))) ; { $auto$opt_expr.cc:205:group_cell_inputs$312 [0] $auto$opt_expr.cc:205:group_cell_inputs$312 [1] }
(define-fun |top#66| ((state |top_s|)) (_ BitVec 1) (bvxor ((_ extract 0 0) (|top#55| state)) ((_ extract 27 27) (|top#0| state)))) ; $auto$opt_expr.cc:205:group_cell_inputs$317
(define-fun |top#67| ((state |top_s|)) (_ BitVec 2) (bvxor (concat (|top#64| state) ((_ extract 1 1) (|top#65| state))) (concat (|top#66| state) (|top#66| state)))) ; { $auto$opt_expr.cc:205:group_cell_inputs$315 [0] $auto$opt_expr.cc:205:group_cell_inputs$315 [1] }
(define-fun |top#68| ((state |top_s|)) (_ BitVec 1) (bvxor ((_ extract 0 0) (|top#57| state)) ((_ extract 26 26) (|top#0| state)))) ; $auto$opt_expr.cc:205:group_cell_inputs$320
(define-fun |top#69| ((state |top_s|)) (_ BitVec 2) (bvxor (concat (|top#66| state) ((_ extract 1 1) (|top#67| state))) (concat (|top#68| state) (|top#68| state)))) ; { $auto$opt_expr.cc:205:group_cell_inputs$318 [0] $auto$opt_expr.cc:205:group_cell_inputs$318 [1] }
(define-fun |top#70| ((state |top_s|)) (_ BitVec 1) (bvxor ((_ extract 0 0) (|top#59| state)) ((_ extract 25 25) (|top#0| state)))) ; $auto$opt_expr.cc:205:group_cell_inputs$323
(define-fun |top#71| ((state |top_s|)) (_ BitVec 2) (bvxor (concat (|top#68| state) ((_ extract 1 1) (|top#69| state))) (concat (|top#70| state) (|top#70| state)))) ; { $auto$opt_expr.cc:205:group_cell_inputs$321 [0] $auto$opt_expr.cc:205:group_cell_inputs$321 [1] }
(define-fun |top#72| ((state |top_s|)) (_ BitVec 1) (bvxor ((_ extract 0 0) (|top#61| state)) ((_ extract 24 24) (|top#0| state)))) ; $auto$opt_expr.cc:205:group_cell_inputs$326
(define-fun |top#73| ((state |top_s|)) (_ BitVec 2) (bvxor (concat (|top#70| state) ((_ extract 1 1) (|top#71| state))) (concat (|top#72| state) (|top#72| state)))) ; { $auto$opt_expr.cc:205:group_cell_inputs$324 [0] $auto$opt_expr.cc:205:group_cell_inputs$324 [1] }
(define-fun |top#74| ((state |top_s|)) (_ BitVec 1) (bvxor ((_ extract 0 0) (|top#63| state)) ((_ extract 23 23) (|top#0| state)))) ; $auto$opt_expr.cc:205:group_cell_inputs$329
(define-fun |top#75| ((state |top_s|)) (_ BitVec 2) (bvxor (concat (|top#72| state) ((_ extract 1 1) (|top#73| state))) (concat (|top#74| state) (|top#74| state)))) ; { $auto$opt_expr.cc:205:group_cell_inputs$327 [0] $auto$opt_expr.cc:205:group_cell_inputs$327 [1] }
(define-fun |top#76| ((state |top_s|)) (_ BitVec 1) (bvxor ((_ extract 0 0) (|top#65| state)) ((_ extract 22 22) (|top#0| state)))) ; $auto$opt_expr.cc:205:group_cell_inputs$332
(define-fun |top#77| ((state |top_s|)) (_ BitVec 2) (bvxor (concat (|top#74| state) ((_ extract 1 1) (|top#75| state))) (concat (|top#76| state) (|top#76| state)))) ; { $auto$opt_expr.cc:205:group_cell_inputs$330 [0] $auto$opt_expr.cc:205:group_cell_inputs$330 [1] }
(define-fun |top#78| ((state |top_s|)) (_ BitVec 1) (bvxor ((_ extract 0 0) (|top#67| state)) ((_ extract 21 21) (|top#0| state)))) ; $auto$opt_expr.cc:205:group_cell_inputs$335
(define-fun |top#79| ((state |top_s|)) (_ BitVec 2) (bvxor (concat (|top#76| state) ((_ extract 1 1) (|top#77| state))) (concat (|top#78| state) (|top#78| state)))) ; { $auto$opt_expr.cc:205:group_cell_inputs$333 [0] $auto$opt_expr.cc:205:group_cell_inputs$333 [1] }
(define-fun |top#80| ((state |top_s|)) (_ BitVec 1) (bvxor ((_ extract 0 0) (|top#69| state)) ((_ extract 20 20) (|top#0| state)))) ; $auto$opt_expr.cc:205:group_cell_inputs$338
(define-fun |top#81| ((state |top_s|)) (_ BitVec 2) (bvxor (concat (|top#78| state) ((_ extract 1 1) (|top#79| state))) (concat (|top#80| state) (|top#80| state)))) ; { $auto$opt_expr.cc:205:group_cell_inputs$336 [0] $auto$opt_expr.cc:205:group_cell_inputs$336 [1] }
(define-fun |top#82| ((state |top_s|)) (_ BitVec 1) (bvxor ((_ extract 0 0) (|top#71| state)) ((_ extract 19 19) (|top#0| state)))) ; $auto$opt_expr.cc:205:group_cell_inputs$341
(define-fun |top#83| ((state |top_s|)) (_ BitVec 2) (bvxor (concat (|top#80| state) ((_ extract 1 1) (|top#81| state))) (concat (|top#82| state) (|top#82| state)))) ; { $auto$opt_expr.cc:205:group_cell_inputs$339 [0] $auto$opt_expr.cc:205:group_cell_inputs$339 [1] }
(define-fun |top#84| ((state |top_s|)) (_ BitVec 1) (bvxor ((_ extract 0 0) (|top#73| state)) ((_ extract 18 18) (|top#0| state)))) ; $auto$opt_expr.cc:205:group_cell_inputs$344
(define-fun |top#85| ((state |top_s|)) (_ BitVec 2) (bvxor (concat (|top#82| state) ((_ extract 1 1) (|top#83| state))) (concat (|top#84| state) (|top#84| state)))) ; { $auto$opt_expr.cc:205:group_cell_inputs$342 [0] $auto$opt_expr.cc:205:group_cell_inputs$342 [1] }
(define-fun |top#86| ((state |top_s|)) (_ BitVec 1) (bvxor ((_ extract 0 0) (|top#75| state)) ((_ extract 17 17) (|top#0| state)))) ; $auto$opt_expr.cc:205:group_cell_inputs$347
(define-fun |top#87| ((state |top_s|)) (_ BitVec 2) (bvxor (concat (|top#84| state) ((_ extract 1 1) (|top#85| state))) (concat (|top#86| state) (|top#86| state)))) ; { $auto$opt_expr.cc:205:group_cell_inputs$345 [0] $auto$opt_expr.cc:205:group_cell_inputs$345 [1] }
(define-fun |top#88| ((state |top_s|)) (_ BitVec 1) (bvxor ((_ extract 0 0) (|top#77| state)) ((_ extract 16 16) (|top#0| state)))) ; $auto$opt_expr.cc:205:group_cell_inputs$350
(define-fun |top#89| ((state |top_s|)) (_ BitVec 2) (bvxor (concat (|top#86| state) ((_ extract 1 1) (|top#87| state))) (concat (|top#88| state) (|top#88| state)))) ; { $auto$opt_expr.cc:205:group_cell_inputs$348 [0] $auto$opt_expr.cc:205:group_cell_inputs$348 [1] }
(define-fun |top#90| ((state |top_s|)) (_ BitVec 1) (bvxor ((_ extract 0 0) (|top#79| state)) ((_ extract 15 15) (|top#0| state)))) ; $auto$opt_expr.cc:205:group_cell_inputs$353
(define-fun |top#91| ((state |top_s|)) (_ BitVec 2) (bvxor (concat (|top#88| state) ((_ extract 1 1) (|top#89| state))) (concat (|top#90| state) (|top#90| state)))) ; { $auto$opt_expr.cc:205:group_cell_inputs$351 [0] $auto$opt_expr.cc:205:group_cell_inputs$351 [1] }
(define-fun |top#92| ((state |top_s|)) (_ BitVec 1) (bvxor ((_ extract 0 0) (|top#81| state)) ((_ extract 14 14) (|top#0| state)))) ; $auto$opt_expr.cc:205:group_cell_inputs$356
(define-fun |top#93| ((state |top_s|)) (_ BitVec 2) (bvxor (concat (|top#90| state) ((_ extract 1 1) (|top#91| state))) (concat (|top#92| state) (|top#92| state)))) ; { $auto$opt_expr.cc:205:group_cell_inputs$354 [0] $auto$opt_expr.cc:205:group_cell_inputs$354 [1] }
(define-fun |top#94| ((state |top_s|)) (_ BitVec 1) (bvxor ((_ extract 0 0) (|top#83| state)) ((_ extract 13 13) (|top#0| state)))) ; $auto$opt_expr.cc:205:group_cell_inputs$359
(define-fun |top#95| ((state |top_s|)) (_ BitVec 2) (bvxor (concat (|top#92| state) ((_ extract 1 1) (|top#93| state))) (concat (|top#94| state) (|top#94| state)))) ; { $auto$opt_expr.cc:205:group_cell_inputs$357 [0] $auto$opt_expr.cc:205:group_cell_inputs$357 [1] }
(define-fun |top#96| ((state |top_s|)) (_ BitVec 1) (bvxor ((_ extract 0 0) (|top#85| state)) ((_ extract 12 12) (|top#0| state)))) ; $auto$opt_expr.cc:205:group_cell_inputs$362
(define-fun |top#97| ((state |top_s|)) (_ BitVec 2) (bvxor (concat (|top#94| state) ((_ extract 1 1) (|top#95| state))) (concat (|top#96| state) (|top#96| state)))) ; { $auto$opt_expr.cc:205:group_cell_inputs$360 [0] $auto$opt_expr.cc:205:group_cell_inputs$360 [1] }
(define-fun |top#98| ((state |top_s|)) (_ BitVec 1) (bvxor ((_ extract 0 0) (|top#87| state)) ((_ extract 11 11) (|top#0| state)))) ; $auto$opt_expr.cc:205:group_cell_inputs$365
(define-fun |top#99| ((state |top_s|)) (_ BitVec 2) (bvxor (concat (|top#96| state) ((_ extract 1 1) (|top#97| state))) (concat (|top#98| state) (|top#98| state)))) ; { $auto$opt_expr.cc:205:group_cell_inputs$363 [0] $auto$opt_expr.cc:205:group_cell_inputs$363 [1] }
(define-fun |top#100| ((state |top_s|)) (_ BitVec 1) (bvxor ((_ extract 0 0) (|top#89| state)) ((_ extract 10 10) (|top#0| state)))) ; $auto$opt_expr.cc:205:group_cell_inputs$368
(define-fun |top#101| ((state |top_s|)) (_ BitVec 2) (bvxor (concat (|top#98| state) ((_ extract 1 1) (|top#99| state))) (concat (|top#100| state) (|top#100| state)))) ; { $auto$opt_expr.cc:205:group_cell_inputs$366 [0] $auto$opt_expr.cc:205:group_cell_inputs$366 [1] }
(define-fun |top#102| ((state |top_s|)) (_ BitVec 1) (bvxor ((_ extract 0 0) (|top#91| state)) ((_ extract 9 9) (|top#0| state)))) ; $auto$opt_expr.cc:205:group_cell_inputs$371
(define-fun |top#103| ((state |top_s|)) (_ BitVec 2) (bvxor (concat (|top#100| state) ((_ extract 1 1) (|top#101| state))) (concat (|top#102| state) (|top#102| state)))) ; { $auto$opt_expr.cc:205:group_cell_inputs$369 [0] $auto$opt_expr.cc:205:group_cell_inputs$369 [1] }
(define-fun |top#104| ((state |top_s|)) (_ BitVec 1) (bvxor ((_ extract 0 0) (|top#93| state)) ((_ extract 8 8) (|top#0| state)))) ; $auto$opt_expr.cc:205:group_cell_inputs$374
(define-fun |top#105| ((state |top_s|)) (_ BitVec 2) (bvxor (concat (|top#102| state) ((_ extract 1 1) (|top#103| state))) (concat (|top#104| state) (|top#104| state)))) ; { $auto$opt_expr.cc:205:group_cell_inputs$372 [0] $auto$opt_expr.cc:205:group_cell_inputs$372 [1] }
(define-fun |top#106| ((state |top_s|)) (_ BitVec 1) (bvxor ((_ extract 0 0) (|top#95| state)) ((_ extract 7 7) (|top#0| state)))) ; $auto$opt_expr.cc:205:group_cell_inputs$377
(define-fun |top#107| ((state |top_s|)) (_ BitVec 2) (bvxor (concat (|top#104| state) ((_ extract 1 1) (|top#105| state))) (concat (|top#106| state) (|top#106| state)))) ; { $auto$opt_expr.cc:205:group_cell_inputs$375 [0] $auto$opt_expr.cc:205:group_cell_inputs$375 [1] }
(define-fun |top#108| ((state |top_s|)) (_ BitVec 1) (bvxor ((_ extract 0 0) (|top#97| state)) ((_ extract 6 6) (|top#0| state)))) ; $auto$opt_expr.cc:205:group_cell_inputs$380
(define-fun |top#109| ((state |top_s|)) (_ BitVec 2) (bvxor (concat (|top#106| state) ((_ extract 1 1) (|top#107| state))) (concat (|top#108| state) (|top#108| state)))) ; { $auto$opt_expr.cc:205:group_cell_inputs$378 [0] $auto$opt_expr.cc:205:group_cell_inputs$378 [1] }
(define-fun |top#110| ((state |top_s|)) (_ BitVec 1) (bvxor ((_ extract 0 0) (|top#109| state)) ((_ extract 0 0) (|top#0| state)))) ; \c [0]
(define-fun |top#111| ((state |top_s|)) (_ BitVec 1) (bvxor ((_ extract 0 0) (|top#99| state)) ((_ extract 5 5) (|top#0| state)))) ; $auto$opt_expr.cc:205:group_cell_inputs$383
(define-fun |top#112| ((state |top_s|)) (_ BitVec 2) (bvxor (concat (|top#108| state) ((_ extract 1 1) (|top#109| state))) (concat (|top#111| state) (|top#111| state)))) ; { $auto$opt_expr.cc:205:group_cell_inputs$381 [0] \c [7] }
(define-fun |top#113| ((state |top_s|)) (_ BitVec 1) (bvxor ((_ extract 0 0) (|top#101| state)) ((_ extract 4 4) (|top#0| state)))) ; $auto$opt_expr.cc:205:group_cell_inputs$386
(define-fun |top#114| ((state |top_s|)) (_ BitVec 2) (bvxor (concat (|top#111| state) ((_ extract 1 1) (|top#112| state))) (concat (|top#113| state) (|top#113| state)))) ; { $auto$opt_expr.cc:205:group_cell_inputs$384 [0] \c [6] }
(define-fun |top#115| ((state |top_s|)) (_ BitVec 1) (bvxor ((_ extract 0 0) (|top#103| state)) ((_ extract 3 3) (|top#0| state)))) ; $auto$opt_expr.cc:205:group_cell_inputs$389
(define-fun |top#116| ((state |top_s|)) (_ BitVec 2) (bvxor (concat (|top#113| state) ((_ extract 1 1) (|top#114| state))) (concat (|top#115| state) (|top#115| state)))) ; { $auto$opt_expr.cc:205:group_cell_inputs$387 [0] \c [5] }
(define-fun |top#117| ((state |top_s|)) (_ BitVec 1) (bvxor ((_ extract 0 0) (|top#105| state)) ((_ extract 2 2) (|top#0| state)))) ; $auto$opt_expr.cc:205:group_cell_inputs$392
(define-fun |top#118| ((state |top_s|)) (_ BitVec 2) (bvxor (concat (|top#115| state) ((_ extract 1 1) (|top#116| state))) (concat (|top#117| state) (|top#117| state)))) ; { $auto$opt_expr.cc:205:group_cell_inputs$390 [0] \c [4] }
(define-fun |top#119| ((state |top_s|)) (_ BitVec 1) (bvxor ((_ extract 0 0) (|top#107| state)) ((_ extract 1 1) (|top#0| state)))) ; $auto$opt_expr.cc:205:group_cell_inputs$395
(define-fun |top#120| ((state |top_s|)) (_ BitVec 2) (bvxor (concat (|top#117| state) ((_ extract 1 1) (|top#118| state))) (concat (|top#119| state) (|top#119| state)))) ; { $auto$opt_expr.cc:205:group_cell_inputs$393 [0] \c [3] }
(define-fun |top#121| ((state |top_s|)) (_ BitVec 2) (bvxor (concat (|top#119| state) ((_ extract 1 1) (|top#120| state))) (concat (|top#110| state) (|top#110| state)))) ; { \c [1] \c [2] }
(define-fun |top#122| ((state |top_s|)) Bool (= (concat ((_ extract 0 0) (|top#112| state)) (concat ((_ extract 0 0) (|top#114| state)) (concat ((_ extract 0 0) (|top#116| state)) (concat ((_ extract 0 0) (|top#118| state)) (concat ((_ extract 0 0) (|top#120| state)) (concat ((_ extract 0 0) (|top#121| state)) (concat ((_ extract 1 1) (|top#121| state)) (|top#110| state)))))))) #b11110100)) ; $0$formal$choose/crc8.v:10$4_CHECK[0:0]$10
(define-fun |top_u 0| ((state |top_s|)) Bool (or (|top#122| state) (not true))) ; $assume$choose/crc8.v:10$209
(define-fun |top#123| ((state |top_s|)) Bool (= ((_ extract 63 32) (|top#0| state)) #b00110001001100100011001100110100)) ; $0$formal$choose/crc8.v:8$2_CHECK[0:0]$6
(define-fun |top_u 1| ((state |top_s|)) Bool (or (|top#123| state) (not true))) ; $assume$choose/crc8.v:8$207
(define-fun |top#124| ((state |top_s|)) Bool (= ((_ extract 7 4) (|top#0| state)) #b0000)) ; $0$formal$choose/crc8.v:9$3_CHECK[0:0]$8
(define-fun |top_u 2| ((state |top_s|)) Bool (or (|top#124| state) (not true))) ; $assume$choose/crc8.v:9$208
(define-fun |top_a| ((state |top_s|)) Bool true)
(define-fun |top_u| ((state |top_s|)) Bool (and
  (|top_u 0| state)
  (|top_u 1| state)
  (|top_u 2| state)
))
(define-fun |top_i| ((state |top_s|)) Bool true)
(define-fun |top_h| ((state |top_s|)) Bool true)
(define-fun |top_t| ((state |top_s|) (next_state |top_s|)) Bool true) ; end of module top
(declare-fun s () |top_s|)
(assert (|top_u| s))
(check-sat)
