---- MODULE N ----
"====