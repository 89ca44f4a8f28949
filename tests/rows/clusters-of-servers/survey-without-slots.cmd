verify --survey survey-without-slots.survey
